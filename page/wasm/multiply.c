// Multiplies two 128-bit numbers. On WebAssembly, clang calls this function for the hash maps of std, to multiply two 64-bit numbers into 128 bits. No proof
// covers this file.
typedef unsigned long long u64;
typedef unsigned __int128 u128;

static const u64 LOW = 0xffffffff;

u128 __multi3(u128 a, u128 b) {
    u64 a_low = (u64)a, b_low = (u64)b, a_high = (u64)(a >> 64), b_high = (u64)(b >> 64);
    u64 ends = (a_low & LOW) * (b_low & LOW);
    u64 left = (a_low >> 32) * (b_low & LOW) + (ends >> 32);
    u64 right = (a_low & LOW) * (b_low >> 32) + (left & LOW);
    u64 high = (a_low >> 32) * (b_low >> 32) + (left >> 32) + (right >> 32) + a_low * b_high + a_high * b_low;
    return (u128)high << 64 | right << 32 | (ends & LOW);
}
