// Bytes that grow, what is copied and escaped to them, and what is looked for in lines.
#pragma once
#include <immintrin.h>
#include <sys/mman.h>
#include <unistd.h>
#include <algorithm>
#include <charconv>
#include <cstdio>
#include <cstdlib>
#include <cstring>
#include <string_view>

using std::string_view;

// Room behind the last byte, so that a short copy is one of a fixed size.
constexpr size_t PAD = 64;

[[noreturn]] static inline void stop(int status, const char *what) {
    dprintf(2, "over_simdjson: %s\n", what);
    _exit(status);
}

// Large allocations on huge pages: the tape of one line of `wide` is 30 MB.
void *operator new(size_t n) {
    constexpr size_t huge = 1 << 21;
    void *p = n < 2 * huge ? malloc(n) : aligned_alloc(huge, (n + huge - 1) & ~(huge - 1));
    if (!p) stop(5, "memory");
    if (n >= 2 * huge) madvise(p, n, MADV_HUGEPAGE);
    return p;
}
void operator delete(void *p) noexcept { free(p); }
void operator delete(void *p, size_t) noexcept { free(p); }

// Copies a text, behind which 32 bytes are readable, to where as many are free. Gives the end of the copy.
static inline char *copied(char *to, string_view text) {
    if (text.size() <= 32) memcpy(to, text.data(), 32);
    else memcpy(to, text.data(), text.size());
    return to + text.size();
}

// Bytes that grow, with PAD bytes of room behind them.
struct Bytes {
    char *data = nullptr;
    size_t len = 0, cap = 0;
    char *room(size_t n) {
        if (len + n + PAD > cap) grow(n);
        return data + len;
    }
    __attribute__((noinline)) void grow(size_t n) {
        cap = std::max(2 * cap, len + n + 4096);
        data = static_cast<char *>(realloc(data, cap)); // large ones move by their pages
        if (!data) stop(5, "memory");
    }
    void put(char c) { *room(1) = c, len++; }
    template <size_t N> void put(const char (&text)[N]) { memcpy(room(N), text, N - 1), len += N - 1; }
    // PAD bytes behind the text are readable.
    void put(string_view text) { len = copied(room(text.size()), text) - data; }
    template <class Int> void decimal(Int n) {
        char *to = room(24);
        len = std::to_chars(to, to + 24, n).ptr - data;
    }
};

// Which of 32 bytes need an escape between such quotes.
static inline uint32_t special(__m256i x, char quote) {
    const __m256i low = _mm256_set1_epi8(0x1f);
    __m256i named = _mm256_or_si256(_mm256_cmpeq_epi8(x, _mm256_set1_epi8(quote)),
                                    _mm256_cmpeq_epi8(x, _mm256_set1_epi8('\\')));
    return _mm256_movemask_epi8(_mm256_or_si256(named, _mm256_cmpeq_epi8(_mm256_min_epu8(x, low), x)));
}

// Copies 32 bytes at a time up to the next byte to be escaped. Reads and writes up to 31 bytes behind the
// text.
static inline void escaped(Bytes &to, string_view text, char quote) {
    const char *p = text.data(), *end = p + text.size();
    to.room(text.size());
    while (p < end) {
        __m256i x = _mm256_loadu_si256((const __m256i *)p);
        _mm256_storeu_si256((__m256i *)(to.data + to.len), x);
        size_t clean = std::min<size_t>({32, size_t(end - p), size_t(_tzcnt_u32(special(x, quote)))});
        to.len += clean, p += clean;
        if (clean == 32 || p == end) continue;
        unsigned char c = *p++;
        to.put('\\');
        if (c == '\b') to.put('b');
        else if (c == '\t') to.put('t');
        else if (c == '\n') to.put('n');
        else if (c == '\f') to.put('f');
        else if (c == '\r') to.put('r');
        else if (c >= 0x20) to.put(char(c));
        else to.put("u00"), to.put(c < 0x10 ? '0' : '1'), to.put("0123456789abcdef"[c & 15]);
        to.room(end - p);
    }
}

// The same between two marks; a short text with nothing to escape goes at once.
template <size_t A, size_t B>
static inline void wrapped(Bytes &to, const char (&open)[A], string_view text, char quote,
                           const char (&close)[B]) {
    char *p = to.room(A + text.size() + B);
    memcpy(p, open, A - 1), p += A - 1;
    if (text.size() <= 32) {
        __m256i x = _mm256_loadu_si256((const __m256i *)text.data());
        _mm256_storeu_si256((__m256i *)p, x);
        if (!_bzhi_u32(special(x, quote), text.size())) {
            memcpy(p + text.size(), close, B - 1);
            to.len = p + text.size() + B - 1 - to.data;
            return;
        }
    }
    to.len = p - to.data;
    escaped(to, text, quote);
    to.put(close);
}

// The first place where a byte is `first` and the next lies in low..high; `end` where there is none. Reads 32
// bytes behind the end.
static inline const char *find_pair(const char *p, const char *end, char first, char low, char high) {
    const __m256i a = _mm256_set1_epi8(first), l = _mm256_set1_epi8(low), w = _mm256_set1_epi8(high - low);
    for (; p < end; p += 32) {
        __m256i x = _mm256_loadu_si256((const __m256i *)p),
                y = _mm256_sub_epi8(_mm256_loadu_si256((const __m256i *)(p + 1)), l);
        if (uint32_t mask = _mm256_movemask_epi8(
                _mm256_and_si256(_mm256_cmpeq_epi8(x, a), _mm256_cmpeq_epi8(_mm256_min_epu8(y, w), y))))
            return std::min(end, p + __builtin_ctz(mask));
    }
    return end;
}

static inline bool digit(char c) { return c >= '0' && c <= '9'; }

// Whether the number -0 may stand in a block: jp refuses it, and simdjson's tape does not tell it from 0.
static inline bool may_have_minus_zero(const char *p, const char *end) {
    for (const char *q = p; (q = find_pair(q, end, '-', '0', '0')) < end; q++)
        if (!digit(q[2]) && (q == p || strchr(":,[ \t\r\n", q[-1]))) return true;
    return false;
}

static inline bool has_minus_zero(string_view line) {
    bool inside = false;
    for (size_t i = 0; i + 1 < line.size(); i++) {
        if (line[i] == '"') inside = !inside;
        else if (inside && line[i] == '\\') i++;
        else if (!inside && line[i] == '-' && line[i + 1] == '0') return true;
    }
    return false;
}

static inline bool is_blank(string_view line) {
    return line.empty() || (line[0] <= ' ' && line.find_first_not_of(" \t\r") == line.npos);
}

static inline size_t count_lines(const char *p, size_t n) {
    const __m256i lf = _mm256_set1_epi8('\n'), zero = _mm256_setzero_si256();
    __m256i sum = zero;
    size_t i = 0, rest = 0;
    for (; i + 32 <= n; i += 32)
        sum = _mm256_add_epi64(
            sum, _mm256_sad_epu8(_mm256_sub_epi8(zero, _mm256_cmpeq_epi8(
                                                           _mm256_loadu_si256((const __m256i *)(p + i)), lf)),
                                 zero));
    for (; i < n; i++) rest += p[i] == '\n';
    return rest + _mm256_extract_epi64(sum, 0) + _mm256_extract_epi64(sum, 1) + _mm256_extract_epi64(sum, 2) +
           _mm256_extract_epi64(sum, 3);
}
