"""What the plans of an archive have stored: their cuts and sublists, by its files (docs/formats.md); and the C++ that baselines have in
common behind `loading.TEXT`, which computes digests and reads the numbers of blocks."""
import bisect, os, time

TEXT = r"""
static void put(Bytes &out, uint64_t v, int n) { while (n--) out.push_back(v >> (8 * n)); }

static string sha256(const Bytes &bytes) {
    static const uint32_t k[64] = {
        0x428a2f98,0x71374491,0xb5c0fbcf,0xe9b5dba5,0x3956c25b,0x59f111f1,0x923f82a4,0xab1c5ed5,0xd807aa98,0x12835b01,0x243185be,0x550c7dc3,0x72be5d74,0x80deb1fe,0x9bdc06a7,0xc19bf174,
        0xe49b69c1,0xefbe4786,0x0fc19dc6,0x240ca1cc,0x2de92c6f,0x4a7484aa,0x5cb0a9dc,0x76f988da,0x983e5152,0xa831c66d,0xb00327c8,0xbf597fc7,0xc6e00bf3,0xd5a79147,0x06ca6351,0x14292967,
        0x27b70a85,0x2e1b2138,0x4d2c6dfc,0x53380d13,0x650a7354,0x766a0abb,0x81c2c92e,0x92722c85,0xa2bfe8a1,0xa81a664b,0xc24b8b70,0xc76c51a3,0xd192e819,0xd6990624,0xf40e3585,0x106aa070,
        0x19a4c116,0x1e376c08,0x2748774c,0x34b0bcb5,0x391c0cb3,0x4ed8aa4a,0x5b9cca4f,0x682e6ff3,0x748f82ee,0x78a5636f,0x84c87814,0x8cc70208,0x90befffa,0xa4506ceb,0xbef9a3f7,0xc67178f2};
    uint32_t h[8] = {0x6a09e667,0xbb67ae85,0x3c6ef372,0xa54ff53a,0x510e527f,0x9b05688c,0x1f83d9ab,0x5be0cd19};
    auto turn = [](uint32_t x, int n) { return x >> n | x << (32 - n); };
    auto block = [&](const uint8_t *p) {
        uint32_t w[64], s[8];
        for (int i = 0; i < 16; i++) w[i] = (uint32_t)be(p + 4 * i, 4);
        for (int i = 16; i < 64; i++)
            w[i] = w[i - 16] + (turn(w[i - 15], 7) ^ turn(w[i - 15], 18) ^ w[i - 15] >> 3) + w[i - 7] + (turn(w[i - 2], 17) ^ turn(w[i - 2], 19) ^ w[i - 2] >> 10);
        memcpy(s, h, sizeof s);
        for (int i = 0; i < 64; i++) {
            uint32_t a = s[7] + (turn(s[4], 6) ^ turn(s[4], 11) ^ turn(s[4], 25)) + ((s[4] & s[5]) ^ (~s[4] & s[6])) + k[i] + w[i];
            uint32_t b = (turn(s[0], 2) ^ turn(s[0], 13) ^ turn(s[0], 22)) + ((s[0] & s[1]) ^ (s[0] & s[2]) ^ (s[1] & s[2]));
            memmove(s + 1, s, 7 * sizeof *s);
            s[4] += a;
            s[0] = a + b;
        }
        for (int i = 0; i < 8; i++) h[i] += s[i];
    };
    size_t whole = bytes.size() / 64 * 64;
    for (size_t i = 0; i < whole; i += 64) block(&bytes[i]);
    Bytes rest(bytes.begin() + whole, bytes.end());
    rest.push_back(0x80);
    while (rest.size() % 64 != 56) rest.push_back(0);
    put(rest, 8 * bytes.size(), 8);
    for (size_t i = 0; i < rest.size(); i += 64) block(&rest[i]);
    Bytes out;
    for (uint32_t word : h) put(out, word, 4);
    return string(out.begin(), out.end());
}

static bool get_number(const uint8_t *&q, const uint8_t *end, uint64_t least, uint64_t limit, uint64_t &n) {
    n = 0;
    for (int i = 0; i < 6; i++) {
        if (q == end) return false;
        uint8_t b = *q++;
        n |= uint64_t(b & 127) << (7 * i);
        if (b < 128) return !(b == 0 && i > 0) && least <= n && n < limit;
    }
    return false;
}
"""


def plans_in(folder):
    """Of each word its stored plan: its cuts, and of each sublist the first page and how many bytes it has."""
    with open(os.path.join(folder, "archive.journal"), "rb") as file:
        journal = file.read()
    plans, gate = {}, 16
    while journal[gate] == 0xA5:
        length = int.from_bytes(journal[gate + 1 : gate + 5], "big")
        if journal[gate + 5] == 3:
            at = gate + 5 + 19
            word = journal[at + 1 : at + 1 + journal[at]].decode()
            at += 1 + journal[at]
            segments = [journal[k : k + 52] for k in range(at + 4, gate + 5 + length, 52)]
            plans[word] = [int.from_bytes(it[:8], "big") for it in segments], [(int.from_bytes(it[8:12], "big"), int.from_bytes(it[12:20], "big")) for it in segments]
        gate += 5 + length
    return plans


def place_of(plans, t, word):
    """The first page of the sublist that a question before the horizon reads, and how many bytes it has."""
    cuts, places = plans[word]
    k = bisect.bisect_right(cuts, t) - 1
    return places[k] if k >= 0 else (0, 0)


def firsts_of(plans, asked):
    """Those of the questions that are the first to read their sublist."""
    first = {}
    for question in asked:
        place = place_of(plans, *question)
        if place[1]:
            first.setdefault(place, question)
    return list(first.values())


def reading(folder, places, turns=3):
    """The least time of some runs in which these bytes of Pages are read, and nothing else is done."""
    file, times = os.open(os.path.join(folder, "archive.pages"), os.O_RDONLY), []
    for _ in range(turns):
        start = time.perf_counter()
        for first, size in places:
            os.pread(file, size, 4096 * first)
        times.append(time.perf_counter() - start)
    os.close(file)
    return min(times)
