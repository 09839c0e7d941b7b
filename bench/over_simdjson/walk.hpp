// The walk of a worker over the documents that simdjson has laid out.
#pragma once
#include <simdjson.h>
#include <vector>
#include "ends.hpp"

constexpr size_t FLUSH = 1 << 18, LONGEST_ARRAY = 16777216, DEEPEST = 127;

struct Member {
    uint64_t key;  // the first eight bytes of the name, so that most comparisons are of numbers
    uint32_t name; // where the name lies on the tape
    uint32_t rank; // as which member it came
};

// A node of a document that is laid out for `..*`: where its value's text is, and its part of the path.
struct Laid {
    uint32_t begin, end, step, step_end;
    uint32_t next; // the node behind its last descendant
};

// One worker: its parsers, a tape, the head of a line (its number, a tab, and the path so far), and its
// output.
class Walk {
    simdjson::dom::parser parser, single;
    const uint64_t *tape = nullptr;
    const char *strings = nullptr;
    static constexpr size_t FEW = 32;
    std::vector<Member> members; // a stack: those of each object that is being walked
    uint8_t orders[FEW + 1][FEW] = {};
    std::vector<Laid> laid;
    Bytes texts, steps;
    Bytes head;
    Ends &ends;
    Block block;
    string_view line; // the one that is answered
    Bytes out;

    size_t payload(size_t i) const { return tape[i] & 0xffffffffffffff; }
    bool before(const Member &a, const Member &b) const {
        if (a.key != b.key) return a.key < b.key;
        int c = text(a.name).compare(text(b.name));
        return c ? c < 0 : a.rank < b.rank;
    }

    // Whether the mark of a double may stand in one of the tape's words, or in up to three behind them.
    bool may_have_double(size_t n) const {
        const __m256i mark = _mm256_set1_epi8('d');
        __m256i found = _mm256_setzero_si256();
        for (size_t i = 0; i < n; i += 4) {
            __m256i words = _mm256_loadu_si256((const __m256i *)(tape + i));
            found = _mm256_or_si256(found, _mm256_cmpeq_epi8(words, mark));
        }
        return _mm256_movemask_epi8(found) & 0x80808080;
    }

    // All numbers are whole, no array is too long, and nothing is too deep. The tape is read word by word
    // only where that may not be so.
    bool whole(bool suspect) const {
        size_t n = payload(0), depth = 0;
        if (!suspect && !may_have_double(n)) return true;
        for (size_t i = 1; i + 1 < n; i += type(i) == 'l' || type(i) == 'u' ? 2 : 1) {
            char t = type(i);
            if (t == 'd' || ((t == '[' || t == '{') && ++depth > DEEPEST)) return false;
            if (t == ']' || t == '}') depth--;
            if (t != '[' || (tape[i] >> 32 & 0xffffff) != 0xffffff) continue; // simdjson's count ends there
            size_t count = 0;
            for (size_t j = i + 1; type(j) != ']'; j = next(j)) count++;
            if (count > LONGEST_ARRAY) return false;
        }
        return true;
    }

    static void allow(simdjson::dom::parser &parser, size_t capacity, size_t depth) {
        if (parser.allocate(capacity, depth) ||
            (parser.doc.capacity() < capacity && parser.doc.allocate(capacity)))
            stop(5, "memory");
    }
    void lies_in(const simdjson::dom::document &doc) {
        tape = doc.tape.get();
        strings = (const char *)doc.string_buf.get();
    }

    // One line by itself.
    bool parse(string_view line) {
        if (line.size() > single.capacity() || !single.capacity())
            allow(single, std::max(line.size(), BLOCK), DEEPEST);
        auto error = single.parse(line.data(), line.size(), false).error();
        bool deep = error == simdjson::DEPTH_ERROR;
        if (deep) { // simdjson does not count an empty list
            allow(single, single.capacity(), DEEPEST + 1);
            error = single.parse(line.data(), line.size(), false).error();
            allow(single, single.capacity(), DEEPEST);
        }
        lies_in(single.doc);
        return !error && whole(deep || line.size() > 2 * LONGEST_ARRAY);
    }

    // simdjson's first stage over a whole block; false where it finds a fault, or nothing.
    bool survey(string_view bytes) {
        if (bytes.size() > parser.capacity() || !parser.capacity())
            allow(parser, std::max(bytes.size() / 4 * 5, 2 * BLOCK), DEEPEST);
        return !parser.implementation->stage1((const uint8_t *)bytes.data(), bytes.size(),
                                              simdjson::stage1_mode::regular);
    }

    // simdjson's second stage over a line of a surveyed block: one document that begins and ends there. What
    // does not go so is parsed by itself, and so are numbers, for which the second stage would copy the rest
    // of the block.
    bool parse_surveyed(string_view line, uint32_t begin) {
        auto &it = *parser.implementation;
        const uint32_t *found = it.structural_indexes.get(), end = begin + line.size();
        char c = line[found[it.next_structural_index] - begin];
        if (c == '-' || digit(c) || it.stage2_next(parser.doc) ||
            found[it.next_structural_index - 1] >= end || found[it.next_structural_index] < end) {
            while (it.next_structural_index < it.n_structural_indexes &&
                   found[it.next_structural_index] < end)
                it.next_structural_index++;
            return parse(line);
        }
        lies_in(parser.doc);
        return whole(line.size() > 2 * LONGEST_ARRAY);
    }

  public:
    explicit Walk(Ends &ends) : ends(ends) {
        for (auto &order : orders)
            for (size_t k = 0; k < FEW; k++) order[k] = k;
    }

    char type(size_t i) const { return char(tape[i] >> 56); }
    size_t next(size_t i) const {
        char t = type(i);
        return t == '{' || t == '[' ? uint32_t(tape[i]) : i + (t == 'l' || t == 'u' ? 2 : 1);
    }
    string_view text(size_t i) const {
        const char *at = strings + payload(i);
        uint32_t len;
        memcpy(&len, at, 4);
        return string_view(at + 4, len);
    }
    // The value of a member, the last of that name; 0 where there is none.
    template <size_t N> size_t member(size_t i, const char (&name)[N]) const {
        size_t found = 0;
        if (i && type(i) == '{')
            for (size_t j = i + 1; type(j) != '}'; j = next(j + 1)) {
                string_view t = text(j);
                if (t.size() == N - 1 && !memcmp(t.data(), name, N - 1)) found = j + 1;
            }
        return found;
    }
    size_t item(size_t i, size_t index) const {
        if (!i || type(i) != '[') return 0;
        for (i++; type(i) != ']'; i = next(i))
            if (!index--) return i;
        return 0;
    }

    // Calls go(name, value) for each member, in the order of the names, once for each name. Objects of as
    // many members mostly have the same order, so the last one's is tried first.
    template <class Go> void sorted(size_t i, Go go) {
        size_t n = tape[i] >> 32 & 0xffffff, first = members.size(), rank = 0;
        bool few = n <= FEW, moved = false;
        uint8_t *order = orders[few ? n : 0];
        members.resize(first + n);
        for (size_t j = i + 1; type(j) != '}'; j = next(j + 1), rank++) {
            string_view t = text(j);
            uint64_t key;
            memcpy(&key, t.data(), 8);
            key = __builtin_bswap64(key);
            if (t.size() < 8) key &= ~(~uint64_t(0) >> 8 * t.size());
            if (rank >= n) members.emplace_back(); // simdjson counts to 2^24
            members[first + (few ? order[rank] : rank)] = {key, uint32_t(j), uint32_t(rank)};
        }
        size_t last = members.size();
        if (few) {
            for (size_t k = first + 1; k < last; k++) {
                Member m = members[k];
                size_t at = k;
                for (; at > first && before(m, members[at - 1]); at--) members[at] = members[at - 1];
                if (at != k) members[at] = m, moved = true;
            }
            if (moved)
                for (size_t k = 0; k < n; k++) order[members[first + k].rank] = k;
        } else {
            std::sort(members.begin() + first, members.end(), [&](auto &a, auto &b) { return before(a, b); });
        }
        for (size_t k = first; k < last; k++)
            if (k + 1 == last || members[k].key != members[k + 1].key ||
                text(members[k].name) != text(members[k + 1].name))
                go(members[k].name, members[k].name + 1);
        members.resize(first);
    }

    template <class Go> void at_name(string_view name, Go go) {
        size_t len = head.len;
        wrapped(head, "['", name, '\'', "']");
        go();
        head.len = len;
    }
    template <class Go> void at_index(size_t index, Go go) {
        size_t len = head.len;
        head.put('['), head.decimal(index), head.put(']');
        go();
        head.len = len;
    }
    // The same for a name that needs no escape, where there is such a member.
    template <size_t N, class Go> void at_member(size_t i, const char (&name)[N], Go go) {
        size_t value = member(i, name), len = head.len;
        if (!value) return;
        head.put("['"), head.put(name), head.put("']");
        go(value);
        head.len = len;
    }

    // Goes on at each child that passes a test; the path of the others is never written.
    template <class Test, class Go> void at_kept(size_t i, Test test, Go go) {
        if (type(i) == '[') {
            size_t index = 0;
            for (size_t j = i + 1; type(j) != ']'; j = next(j), index++)
                if (test(j)) at_index(index, [&] { go(j); });
        } else if (type(i) == '{') {
            sorted(i, [&](size_t name, size_t value) {
                if (test(value)) at_name(text(name), [&] { go(value); });
            });
        }
    }
    template <class Go> void at_children(size_t i, Go go) {
        auto any = [](size_t) { return true; };
        at_kept(i, any, go);
    }
    // Goes on at each child; there is no path.
    template <class Go> void for_children(size_t i, Go go) {
        if (type(i) == '[')
            for (size_t j = i + 1; type(j) != ']'; j = next(j)) go(j);
        else if (type(i) == '{')
            sorted(i, [&](size_t, size_t value) { go(value); });
    }
    bool has_inner(size_t i) const {
        char t = type(i), end = t == '{' ? '}' : ']';
        if (t == '{' || t == '[')
            for (size_t j = i + 1; type(j) != end; j = next(j))
                if (type(j) == '{' || type(j) == '[') return true;
        return false;
    }
    // Each node and then each of its descendants that has children.
    template <class Go> void descend(size_t i, Go go) {
        auto holds = [&](size_t j) { return type(j) == '{' || type(j) == '['; };
        go(i);
        if (has_inner(i)) at_kept(i, holds, [&](size_t j) { descend(j, go); });
    }

    void value(Bytes &to, size_t i) {
        switch (type(i)) {
        case 'n': return to.put("null");
        case 't': return to.put("true");
        case 'f': return to.put("false");
        case 'l': return to.decimal(int64_t(tape[i + 1]));
        case 'u': return to.decimal(tape[i + 1]);
        case '"': return wrapped(to, "\"", text(i), '"', "\"");
        case '[':
            to.put('[');
            for (size_t j = i + 1; type(j) != ']'; j = next(j)) {
                if (j != i + 1) to.put(',');
                value(to, j);
            }
            return to.put(']');
        default:
            bool more = false;
            to.put('{');
            sorted(i, [&](size_t name, size_t inner) {
                if (more) wrapped(to, ",\"", text(name), '"', "\":");
                else wrapped(to, "\"", text(name), '"', "\":");
                more = true;
                value(to, inner);
            });
            return to.put('}');
        }
    }
    // Lays a value out: its text once, in which those of its descendants lie, and their steps in the order of
    // the query, where paths are asked for.
    template <bool paths> void lay(size_t i, uint32_t step) {
        size_t at = laid.size();
        laid.push_back({uint32_t(texts.len), 0, step, uint32_t(steps.len), 0});
        char t = type(i);
        if (t == '[') {
            size_t index = 0;
            texts.put('[');
            for (size_t j = i + 1; type(j) != ']'; j = next(j)) {
                if (index) texts.put(',');
                step = steps.len;
                if (paths) steps.put('['), steps.decimal(index), steps.put(']');
                index++;
                lay<paths>(j, step);
            }
            texts.put(']');
        } else if (t == '{') {
            bool more = false;
            texts.put('{');
            sorted(i, [&](size_t name, size_t inner) {
                if (more) wrapped(texts, ",\"", text(name), '"', "\":");
                else wrapped(texts, "\"", text(name), '"', "\":");
                more = true;
                step = steps.len;
                if (paths) wrapped(steps, "['", text(name), '\'', "']");
                lay<paths>(inner, step);
            });
            texts.put('}');
        } else {
            value(texts, i);
        }
        laid[at].end = texts.len, laid[at].next = laid.size();
    }
    string_view step_of(const Laid &it) const {
        return string_view(steps.data + it.step, it.step_end - it.step);
    }
    template <bool paths> void all_below(size_t at) {
        string_view above(head.data, head.len);
        bool inner = false;
        for (size_t j = at + 1; j < laid[at].next; j = laid[j].next) {
            string_view step = step_of(laid[j]),
                        text(texts.data + laid[j].begin, laid[j].end - laid[j].begin);
            char *p = out.room(above.size() + step.size() + text.size() + 2);
            if (paths) p = copied(copied(p, above), step), *p++ = '\t';
            p = copied(p, text);
            *p++ = '\n';
            out.len = p - out.data;
            if (out.len > FLUSH) ends.flush(block, out);
            inner |= laid[j].next > j + 1;
        }
        size_t len = head.len;
        if (inner)
            for (size_t j = at + 1; j < laid[at].next; j = laid[j].next) {
                if (laid[j].next == j + 1) continue;
                if (paths) head.put(step_of(laid[j]));
                all_below<paths>(j);
                head.len = len;
            }
    }
    // `..*`, with paths or as values alone.
    template <bool paths> void all(size_t i) {
        laid.clear();
        texts.len = steps.len = 0;
        lay<paths>(i, 0);
        all_below<paths>(0);
    }

    void end_line() {
        out.put('\n');
        if (out.len > FLUSH) ends.flush(block, out);
    }
    void print_value(size_t i) {
        value(out, i);
        end_line();
    }
    void print_line() {
        out.put(line);
        end_line();
    }
    void node(size_t i) {
        out.put(string_view(head.data, head.len));
        out.put('\t');
        print_value(i);
    }

    template <class Query> void run(Query query) {
        while (ends.take(block)) {
            block.bytes.room(PAD);
            memset(block.bytes.data + block.bytes.len, 0, PAD);
            const char *first = block.bytes.data, *p = first, *end = p + block.bytes.len;
            bool minus = may_have_minus_zero(p, end), surveyed = survey(string_view(p, end - p));
            uint64_t number = block.before;
            bool good = true;
            while (p < end && good) {
                const char *lf = (const char *)memchr(p, '\n', end - p);
                line = string_view(p, (lf ? lf : end) - p);
                p += line.size() + 1;
                number++;
                if (is_blank(line)) continue;
                good = surveyed ? parse_surveyed(line, line.data() - first) : parse(line);
                good = good && !(minus && has_minus_zero(line));
                if (!good) continue;
                head.len = 0;
                head.decimal(number), head.put("\t$");
                query(*this, 1);
            }
            ends.give(block, out, good);
        }
    }

    bool above(size_t i, int64_t least) const {
        return i && (type(i) == 'u' || (type(i) == 'l' && int64_t(tape[i + 1]) > least));
    }
    bool is_text(size_t i) const { return i && type(i) == '"'; }
};
