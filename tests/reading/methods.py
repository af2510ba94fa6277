"""The methods of the toolchain's library that a library's file may call, by what they do. Closures that they are handed
are read where they stand."""

# give a value, and leave what they are called on as it is
GIVING = {
    # of numbers, tests and structs
    "abs_diff", "checked_add", "checked_sub", "clone", "count_ones", "div_ceil", "leading_zeros", "max", "min", "pow",
    "saturating_sub", "then", "then_some", "to_be_bytes", "trailing_zeros", "wrapping_add",
    # of options and results
    "and_then", "err", "filter", "is_err", "is_none", "is_ok", "is_some", "map", "map_err", "map_or", "ok", "ok_or",
    "or", "try_into", "unwrap", "unwrap_or", "unwrap_or_else",
    # of lists, and of what goes over them
    "all", "any", "chain", "chunks", "chunks_exact", "contains", "copied", "count", "enumerate", "filter_map", "find",
    "first", "fold", "get", "is_empty", "iter", "last", "len", "position", "rev", "skip", "step_by", "sum",
    "take_while", "windows", "zip",
}
# change what they are called on, or hand out parts of it that can be changed
CHANGING = {"chunks_exact_mut", "copy_from_slice", "fill", "iter_mut", "next", "swap", "take"}
KNOWN = GIVING | CHANGING
# call a conversion without its name, so that no file may call them
NEVER = {"into"}
# give the bytes that they are called on, in another type
SAME_BYTES = {"try_into", "unwrap"}
