#include "name_list.h"

#include <algorithm>
#include <set>

namespace oracle {

bool may_be_in_a_name(std::uint8_t byte) {
    static const std::string letters = "ABCDEFGHIJKLMNOPQRSTUVWXYZabcdefghijklmnopqrstuvwxyz0123456789.-_";
    return letters.find(static_cast<char>(byte)) != std::string::npos;
}

// "In a name list, at the record: 2 also for a name not 1 to 32 long, 16 a wrong byte, 18 a repeat"
std::vector<std::string> read_names(const Bytes& file) {
    RecordReader reader(file);
    std::vector<std::string> names;
    std::set<std::string> before;
    while (reader.next_is(Kind::name)) {
        std::string name;
        for (std::size_t left = reader.open_between(Kind::name, 1, longest_name); left > 0; --left)
            name += static_cast<char>(reader.take(1));
        if (!std::all_of(name.begin(), name.end(), may_be_in_a_name)) refuse(16, reader.place());
        if (!before.insert(name).second) refuse(18, reader.place());
        names.push_back(name);
    }
    reader.open(Kind::name_end);
    reader.finish();
    return names;
}

Bytes names_file(const std::vector<std::string>& names) {
    Bytes file;
    for (const std::string& name : names) {
        std::vector<Field> bytes;
        for (char byte : name) bytes.push_back({1, static_cast<std::uint8_t>(byte)});
        put_record(file, Kind::name, bytes);
    }
    put_record(file, Kind::name_end, {});
    return file;
}

NamesOutcome check_names(const Bytes& file) {
    NamesOutcome outcome;
    try {
        outcome.count = read_names(file).size();
    } catch (const Refusal& refusal) {
        outcome.refusal = refusal;
    }
    return outcome;
}

}  // namespace oracle
