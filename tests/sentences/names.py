"""The crates and functions that the sentences speak of, each named here once; the tables beside the sentences name
those that they list."""

# the crates of a seek: its cursor, its looks and its steps
OF_SEEK = ["walklaws", "looks", "starting", "passing", "landing", "mapseek", "seek"]
# what other crates may call of them
SEEK = "seek::seek"
FRESH = "walklaws::Cursor::new"
# what hands out a word of the upper run or of a bitmap and counts it, and what alone calls it
LOOK = "looks::look"
LOOKING = ["looks::next_word", "passing::pass", "mapseek::find_in_map"]
# what reads words of the lower run
LOW_PART = "landing::low_part"
# the function of another crate that a seek hands the list's bytes to
POINTER = "reading::pointer_at"

# the crates whose functions read the bytes that they are given, the one of them that reads a word, the function besides
# those that reads a number which a block stores, and what makes a number of bytes in the toolchain's library
READING = ["numbers", "runs"]
RUN_WORD = "runs::run_word"
NUMBER_IN = "reading::number_in"
FROM_BYTES = ["u16::from_be_bytes", "u32::from_be_bytes", "u64::from_be_bytes"]
# what reads a bitmap's words for a rank, and what alone calls it
RANK = "maprank::rank_at"
RANK_IN = "rows::rank_in"

# the table's type, its fields, what it says of them, and what makes the table
TABLE = "bytetable::Table"
ROWS = {"rows": "[u8; 2048]"}
IS_TABLE = {"places": "PlacesOfOnes rows"}
PLACES = "bytetable::places"

# one seek by the cursor in hand, and the one loop that makes seeks
SEEK_IN = "query::seek_in"
LOOP = "query::batch"

# the way from the card's check to the kinds of questions, and those
ANSWERS = ["ask::answer_all", "answer::answer_one"]
KIND_3 = "bycommon::by_common"
# what lists the pages of a screen, the call, and what that hands the card to
SCREEN = "panel::list_from"
SHOWING = "panel::screen"
SHOWN_BY = ["checkindex::check_index", "numbers::read_u16", SCREEN]
KINDS = [KIND_3, "kinds::by_bound", "kinds::by_rank", "answer::by_phrase"]


def of_seek(program):
    """The functions of the seek's crates."""
    return [f for f in program.functions.values() if f.crate in OF_SEEK]
