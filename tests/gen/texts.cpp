#include "texts.h"

#include <algorithm>
#include <set>

#include "../oracle/name_list.h"
#include "damage.h"

namespace gen {

namespace {

using Words = std::vector<std::string>;

const std::string letters = "ABCDEFGHIJKLMNOPQRSTUVWXYZabcdefghijklmnopqrstuvwxyz0123456789.-_";

std::string random_letters(Random& random, std::size_t length) {
    const std::size_t kinds = random.chance(30) ? 2 : letters.size();
    std::string name;
    while (name.size() < length) name += letters[random.below(kinds)];
    return name;
}

std::string random_name(Random& random) {
    const std::uint64_t choice = random.below(10);
    if (choice < 6) return random_letters(random, random.between(1, 4));
    return random_letters(random, choice < 9 ? random.between(1, oracle::longest_name) : oracle::longest_name);
}

char other_case(char letter) {
    const bool small = letter >= 'a' && letter <= 'z', large = letter >= 'A' && letter <= 'Z';
    return static_cast<char>(small ? letter - 'a' + 'A' : large ? letter - 'A' + 'a' : letter);
}

std::string similar_name(Random& random, std::string name) {
    char& letter = name[random.below(name.size())];
    switch (random.below(4)) {
        case 0: letter = letters[random.below(letters.size())]; break;
        case 1: letter = other_case(letter); break;
        case 2: name += letters[random.below(letters.size())]; break;
        default: name.pop_back(); break;
    }
    return name.empty() || name.size() > oracle::longest_name ? random_name(random) : name;
}

template <class T>
void shuffle(Random& random, std::vector<T>& list) {
    for (std::size_t k = list.size(); k > 1; --k) std::swap(list[k - 1], list[random.below(k)]);
}

// How a tree divides its names, at each bracket.
enum class Growth { star, comb, halves, any };

// Where the first part of several ends.
std::size_t first_part(Random& random, Growth growth, std::size_t size) {
    switch (growth) {
        case Growth::star: return 1;
        case Growth::comb: return random.chance(80) ? 1 : size - 1;
        case Growth::halves: return size / 2;
        case Growth::any: break;
    }
    return random.between(1, size - 1);
}

// Puts a subtree of the names from `first` to before `past`. Where no column is left every part is a name.
void put_subtree(Random& random, Words& words, const Words& names, std::size_t first, std::size_t past, Growth growth,
                 std::size_t& columns_left) {
    if (past - first == 1) {
        words.push_back(names[first]);
        return;
    }
    words.push_back("(");
    for (bool more = true; more;) {
        const std::size_t left = past - first;
        // Two parts at least; more where chance has it.
        const bool last = words.back() == "," && (left == 1 || (growth != Growth::star && random.chance(70)));
        std::size_t size = last ? left : first_part(random, growth, left);
        if (size > 1 && columns_left == 0) size = 1;
        if (size > 1) --columns_left;
        put_subtree(random, words, names, first, first + size, growth, columns_left);
        first += size;
        more = first < past;
        words.push_back(more ? "," : ")");
    }
}

// How many names, trees and columns a text may have.
struct Measure {
    std::size_t names;
    std::size_t trees;
    std::size_t columns;
};

// Each tree over some of the names.
Words random_words(Random& random, const Measure& measure) {
    const Words pool = random_names(random, measure.names);
    std::size_t columns_left = measure.columns;
    Words words;
    for (std::size_t tree = 0; tree < measure.trees; ++tree) {
        const unsigned percent = random.chance(30) ? 100 : static_cast<unsigned>(random.between(5, 100));
        Words names;
        for (const std::string& name : pool)
            if (random.chance(percent)) names.push_back(name);
        if (names.empty()) names.push_back(pool[random.below(pool.size())]);
        shuffle(random, names);
        put_subtree(random, words, names, 0, names.size(), static_cast<Growth>(random.below(4)), columns_left);
        words.push_back(";");
    }
    return words;
}

// Blanks before some of the words, and after the last.
Bytes spaced(Random& random, const Words& words) {
    const unsigned percents[] = {0, 0, 10, 60};
    const unsigned percent = percents[random.below(4)];
    std::string text;
    const auto put_blanks = [&] {
        if (!random.chance(percent)) return;
        for (std::uint64_t k = random.between(1, 3); k > 0; --k) text += " \t\r\n"[random.below(4)];
    };
    for (const std::string& word : words) {
        put_blanks();
        text += word;
    }
    put_blanks();
    return Bytes(text.begin(), text.end());
}

// ---- accidents

std::size_t some_place(Random& random, const Bytes& text) { return random.below(text.size() + 1); }

std::uint8_t telling_byte(Random& random) {
    static const std::string bytes = "(((()))),,,,;;; \t\r\nAAaz09.-_*:'[]\x80\xff";
    return static_cast<std::uint8_t>(random.chance(90) ? bytes[random.below(bytes.size())] : random.bits());
}

void put(Bytes& text, std::size_t place, const std::string& what) {
    text.insert(text.begin() + static_cast<std::ptrdiff_t>(place), what.begin(), what.end());
}

void cut_text(Random& random, Bytes& text) { text.resize(some_place(random, text)); }

void change_byte(Random& random, Bytes& text) {
    if (!text.empty()) text[random.below(text.size())] = telling_byte(random);
}

void add_byte(Random& random, Bytes& text) {
    const std::size_t place = some_place(random, text);
    put(text, place, std::string(1, static_cast<char>(telling_byte(random))));
}

void take_out_byte(Random& random, Bytes& text) {
    if (!text.empty()) text.erase(text.begin() + static_cast<std::ptrdiff_t>(random.below(text.size())));
}

void double_stretch(Random& random, Bytes& text) {
    const std::size_t x = some_place(random, text), y = some_place(random, text);
    const std::string stretch(text.begin() + static_cast<std::ptrdiff_t>(std::min(x, y)),
                              text.begin() + static_cast<std::ptrdiff_t>(std::max(x, y)));
    put(text, some_place(random, text), stretch);
}

// The places where names start.
std::vector<std::size_t> starts(const Bytes& text) {
    std::vector<std::size_t> places;
    for (std::size_t at = 0; at < text.size(); ++at)
        if (oracle::may_be_in_a_name(text[at]) && (at == 0 || !oracle::may_be_in_a_name(text[at - 1]))) places.push_back(at);
    return places;
}

std::size_t name_length(const Bytes& text, std::size_t start) {
    std::size_t past = start;
    while (past < text.size() && oracle::may_be_in_a_name(text[past])) ++past;
    return past - start;
}

// To about the most there may be.
void lengthen_name(Random& random, Bytes& text) {
    const std::vector<std::size_t> places = starts(text);
    if (places.empty()) return;
    const std::size_t place = places[random.below(places.size())], length = random.between(30, 36);
    const std::size_t now = name_length(text, place);
    if (now < length) put(text, place, random_letters(random, length - now));
}

void copy_name(Random& random, Bytes& text) {
    const std::vector<std::size_t> places = starts(text);
    if (places.empty()) return;
    const std::size_t from = places[random.below(places.size())], to = places[random.below(places.size())];
    const auto first = text.begin() + static_cast<std::ptrdiff_t>(from);
    const std::string name(first, first + static_cast<std::ptrdiff_t>(name_length(text, from)));
    const auto old = text.begin() + static_cast<std::ptrdiff_t>(to);
    text.erase(old, old + static_cast<std::ptrdiff_t>(name_length(text, to)));
    put(text, to, name);
}

// Mostly where a subtree starts.
void add_brackets(Random& random, Bytes& text) {
    const std::vector<std::size_t> places = starts(text);
    const bool fit = !places.empty() && random.chance(80);
    const std::size_t place = fit ? places[random.below(places.size())] : some_place(random, text);
    put(text, place, std::string(random.chance(50) ? random.between(1, 3) : random.between(60, 66), '('));
}

using Accident = void (*)(Random&, Bytes&);
constexpr Accident accidents[] = {cut_text,       change_byte,   change_byte, add_byte,  take_out_byte,
                                  double_stretch, lengthen_name, copy_name,   add_brackets};

// ---- one token after another

// What may stand where a text has come to.
class Wanderer {
public:
    explicit Wanderer(Random& random)
        : random_(random),
          names_(random_names(random, random.chance(50) ? 70 : 8)),
          open_percent_(static_cast<unsigned>(random.between(5, 95))) {}

    std::string next() {
        if (random_.chance(1)) return std::string(1, static_cast<char>(telling_byte(random_)));
        if (due_) return random_.chance(open_percent_) ? open() : name();
        if (parts_.empty()) return end();
        return parts_.back() >= 2 && random_.chance(100 - open_percent_) ? close() : comma();
    }

private:
    std::string open() {
        parts_.push_back(1);
        return "(";
    }
    // Mostly one that is not yet in the tree.
    std::string name() {
        due_ = false;
        if (random_.chance(1)) return random_letters(random_, random_.between(31, 40));
        return random_.chance(97) ? names_[used_++ % names_.size()] : names_[random_.below(names_.size())];
    }
    std::string end() {
        due_ = true;
        if (random_.chance(70)) used_ = 0;
        return ";";
    }
    std::string close() {
        parts_.pop_back();
        return ")";
    }
    std::string comma() {
        due_ = true;
        ++parts_.back();
        return ",";
    }

    Random& random_;
    Words names_;
    unsigned open_percent_;
    std::size_t used_ = 0;
    std::vector<unsigned> parts_;  // of each open bracket
    bool due_ = true;              // whether a subtree is to come
};

}  // namespace

std::vector<std::string> random_names(Random& random, std::size_t count) {
    Words names;
    std::set<std::string> before;
    while (names.size() < count) {
        const bool fresh = names.empty() || random.chance(60);
        const std::string name = fresh ? random_name(random) : similar_name(random, names[random.below(names.size())]);
        if (before.insert(name).second) names.push_back(name);
    }
    return names;
}

Bytes unlawful_names(Random& random, std::vector<std::string> names) {
    if (names.empty()) names.push_back("A");
    std::string& name = names[random.below(names.size())];
    const std::string other = names[random.below(names.size())];
    switch (random.below(6)) {
        case 0: name = other; break;
        case 1: names.push_back(other); break;
        case 2: name[random.below(name.size())] = static_cast<char>(telling_byte(random)); break;
        case 3: name.clear(); break;
        case 4: name = random_letters(random, random.between(31, 300)); break;
        default: return damaged(random, oracle::names_file(names));
    }
    return oracle::names_file(names);
}

Bytes random_trees(Random& random) {
    const std::size_t most_names[] = {3, 6, 12, 64}, most_trees[] = {1, 3, 8, 30};
    const std::size_t names = random.between(1, most_names[random.below(4)]);
    const std::size_t trees = random.between(1, most_trees[random.below(4)]);
    return spaced(random, random_words(random, {names, trees, 256}));
}

Bytes lavish_trees(Random& random) {
    const bool of_names = random.chance(50);
    const std::size_t names = of_names ? random.between(62, 67) : random.between(20, 40);
    const std::size_t trees = of_names ? random.between(1, 4) : random.between(8, 25);
    Bytes text = spaced(random, random_words(random, {names, trees, random.between(250, 262)}));
    if (random.chance(20)) copy_name(random, text);
    if (random.chance(20)) lengthen_name(random, text);
    return text;
}

Bytes damaged_text(Random& random, Bytes text) {
    for (std::uint64_t k = random.between(1, 3); k > 0; --k)
        accidents[random.below(sizeof accidents / sizeof accidents[0])](random, text);
    return text;
}

Bytes wandering_text(Random& random) {
    const std::size_t most_words[] = {12, 60, 400};
    Wanderer wanderer(random);
    Words words;
    for (std::uint64_t k = random.between(1, most_words[random.below(3)]); k > 0; --k) words.push_back(wanderer.next());
    return spaced(random, words);
}

}  // namespace gen
