// A host in C++: the header's functions and types as they stand.
#include "lfi_verifier.h"
#include <array>
#include <cstddef>
#include <cstdint>

int main() {
    constexpr std::array<std::uint8_t, 8> code{0xC0, 0x03, 0x5F, 0xD6, 0x01, 0x00, 0x00, 0xD4}; // RET, SVC #0
    lfi_fault fault{};
    if (lfi_verify(code.data(), 4, LFI_PROFILE_1, &fault) != LFI_LAWFUL) return 1;
    if (lfi_verify(code.data(), code.size(), LFI_PROFILE_1, &fault) != LFI_REFUSED) return 2;
    if (fault.word != 1 || fault.rule != 1) return 3;
    lfi_state state{};
    if (lfi_verify_init(&state, 2, LFI_PROFILE_1) != LFI_LAWFUL) return 4;
    for (std::size_t at = 0; at < code.size(); at += 4) lfi_verify_update(&state, code.data() + at, 4);
    if (lfi_verify_final(&state, &fault) != LFI_REFUSED || fault.word != 1) return 5;
    return 0;
}
