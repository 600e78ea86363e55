// A question to RE2: whether a whole chain matches a regular expression over link bytes.

#include <re2/re2.h>

#include <cstddef>
#include <cstdint>

extern "C" void *rabbitsteel_re2_new(const char *pattern, size_t length) {
    RE2::Options options;
    options.set_encoding(RE2::Options::EncodingLatin1);
    return new RE2(re2::StringPiece(pattern, length), options);
}

extern "C" bool rabbitsteel_re2_matches(const void *re2, const uint8_t *chain, size_t length) {
    const re2::StringPiece text(reinterpret_cast<const char *>(chain), length);
    return static_cast<const RE2 *>(re2)->Match(text, 0, length, RE2::ANCHOR_BOTH, nullptr, 0);
}

extern "C" void rabbitsteel_re2_delete(void *re2) { delete static_cast<RE2 *>(re2); }
