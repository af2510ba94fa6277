#include "record.hpp"

#include "require.hpp"

Record::Record(const char *path) : file_(std::fopen(path, "w")) {
    require(file_ != nullptr, "cannot write %s", path);
    std::fputs("operation,family,parameters,contender,ns,unit,ratio,bytes\n", file_);
}

Record::~Record() { std::fclose(file_); }

void Record::add(const Measurement &m) {
    const double archive_time = m.times.front().second;
    std::fprintf(stderr, "%-24s %-24s %-34s", m.operation.c_str(), m.family.c_str(), m.parameters.c_str());
    for (const auto &[contender, ns] : m.times) {
        const double ratio = archive_time / ns;
        std::fprintf(file_, "%s,%s,%s,%s,%.4f,%s,%.4f,%.3f\n", m.operation.c_str(), m.family.c_str(),
                     m.parameters.c_str(), contender.c_str(), ns, m.unit.c_str(), ratio, m.bytes);
        std::fprintf(stderr, "  %s %.4g (%.2f)", contender.c_str(), ns, ratio);
    }
    std::fputs("\n", stderr);
    std::fflush(file_);
}
