// The check in plain C, written for comparison beside the proved one; compiled and timed by bench/bench.c only.
// The check of 01-scope.md, "When bytes are an image", as plain C. This is the bar for the verified code.
//
// Why one walk is enough. Every chunk is found by the search of rule 3, so a chunk that is found proves rule 3 for
// itself. A node met at level k that does not open its partition must have exactly level k; the one that opens it
// was tested where it was first met. So each order is hashed by h once, and each partition by g once. Keys
// need to rise only at level 1: the walk meets level 1 from left to right, and every upper list is a part of it.
// Last, the number of chunks met equals the number of non-empty blocks, and empty blocks are zero.
#include "check.h"
#ifdef __x86_64__
#include <immintrin.h>
#endif

// ---------------------------------------------------------------- header, shared
typedef struct {
  const u8 *blk; u32 gamma, B, N, M, n, beta; size_t bs;
  u32 a[5], b[5], pw[20];        // pw[j] = gamma^j
  u64 div[20];                   // div[j]: x*div[j] <= div[j]-1 iff gamma^j divides x (x < 2^32, j >= 1)
  u64 mrec;                      // for x mod M
  u32 last, orders, chunks;      // state of the walk
} tab;

static int read_header(tab *s, const u8 *t, size_t len) {
  if (len < 53 || t[0] != 1) return 0;
  s->gamma = t[5]; s->B = t[6]; s->N = be16(t + 7); s->M = be16(t + 9); s->n = be16(t + 11);
  if (s->gamma < 2 || s->gamma > 64 || s->B < 2 || s->B > 32 || s->N < 1 || s->M < 1) return 0;
  u32 e = 0; u64 v = 1; while (v < s->N) { v *= s->gamma; e++; }
  s->beta = 2 + e;
  if (s->M < s->beta || s->n > s->N) return 0;
  for (int i = 0; i < 5; i++) {
    s->a[i] = be32(t + 13 + 4 * i); s->b[i] = be32(t + 33 + 4 * i);
    if (s->a[i] >= P31 || s->b[i] >= P31) return 0;
  }
  s->bs = 8 + 12 * (size_t)s->B;
  if (len != 53 + s->M * s->bs || be32(t + 1) != len) return 0;
  s->pw[0] = 1;
  for (u32 j = 1; j < s->beta; j++) { s->pw[j] = s->pw[j - 1] * s->gamma; s->div[j] = UINT64_MAX / s->pw[j] + 1; }
  s->mrec = UINT64_MAX / s->M + 1;
  s->blk = t + 53; s->last = 0; s->orders = 0; s->chunks = 0;
  return 1;
}

// ---------------------------------------------------------------- straightforward version
// Compiled a second time with -DTUNED as check_tuned: the same walk with three changes that a verified program can have
// too. (1) The hash is folded, r % 2^31 + r / 2^31 (compilers make a mask and a shift of it); sums stay below
// 4p^2 < 2^64, so no other reduction is needed between the steps. (2) Level k is tested by at most two remainders.
// (3) Zero bytes are OR-ed without an early exit, so the loop is vectorised.
static u32 poly(const u32 *c, u32 x) {
  u64 r = c[4];
#ifdef TUNED
  for (int i = 3; i >= 0; i--) { r = r * x + c[i]; r = r % 2147483648u + r / 2147483648u; }
  r = r % 2147483648u + r / 2147483648u;
  if (r >= P31) r -= P31;
#else
  for (int i = 3; i >= 0; i--) r = (r * x + c[i]) % P31;
#endif
  return (u32)r;
}
static int has_level(const tab *s, u32 key, u32 level) {
  u32 h = poly(s->a, key);
#ifdef TUNED
  return (level == 1 || h % s->pw[level - 1] == 0) && (level == s->beta || h % s->pw[level] != 0);
#else
  u32 j = 0;
  while (j + 1 < s->beta && h % s->pw[j + 1] == 0) j++;
  return 1 + j == level;
#endif
}
static int all_zero(const u8 *p, size_t from, size_t to) {
#ifdef TUNED
  u8 acc = 0;
  for (size_t j = from; j < to; j++) acc |= p[j];
  return acc == 0;
#else
  for (size_t j = from; j < to; j++) if (p[j]) return 0;
  return 1;
#endif
}
static int label_cmp(const u8 *p, u32 level, u32 first, u32 cno) {   // block's label against the one sought
  if (p[0] != level) return p[0] < level ? -1 : 1;
  u32 f = be32(p + 4); if (f != first) return f < first ? -1 : 1;
  u32 c = be16(p + 2); return c < cno ? -1 : c > cno;
}
// The place of the label, or M.
static u32 find(const tab *s, u32 level, u32 first, u32 cno, u32 *touched) {
  u32 i = (u32)(((u64)poly(s->b, first) + 65536ull * level + cno) % P31 % s->M);
  for (u32 step = 0; step < s->M; step++) {
    const u8 *p = s->blk + i * s->bs;
    (*touched)++;
    if (p[0] == 0) return s->M;
    int c = label_cmp(p, level, first, cno);
    if (c == 0) return i;
    if (c > 0) return s->M;
    i = i + 1 == s->M ? 0 : i + 1;
  }
  return s->M;
}
static int walk_partition(tab *s, u32 level, u32 first);
static int walk_nodes(tab *s, const u8 *p, u32 level, u32 first, int opens) {
  u32 cnt = p[1];
  for (u32 i = 0; i < cnt; i++) {
    const u8 *nd = p + 8 + 12 * i;
    u32 key = be32(nd), total = be32(nd + 4), disp = be32(nd + 8);
    if (opens && i == 0) { if (key != first) return 0; }
    else { if (key == 0 || key >= P31 || !has_level(s, key, level)) return 0; }
    if (level > 1) {
      if (total | disp) return 0;
      if (!walk_partition(s, level - 1, key)) return 0;
    } else if (key == 0) {
      if (total | disp) return 0;
    } else {
      if (key <= s->last || total == 0 || disp > total) return 0;
      s->last = key; s->orders++;
    }
  }
  return all_zero(p, 8 + 12 * (size_t)cnt, s->bs);
}
static int walk_partition(tab *s, u32 level, u32 first) {
  u32 touched = 0;
  for (u32 cno = 0;; cno++) {
    u32 i = find(s, level, first, cno, &touched);
    if (i == s->M) return cno > 0;               // the previous chunk was full
    const u8 *p = s->blk + i * s->bs;
    if (p[1] == 0 || p[1] > s->B) return 0;
    s->chunks++;
    if (!walk_nodes(s, p, level, first, cno == 0)) return 0;
    if (p[1] < s->B) return 1;
  }
}
int check_plain(const u8 *t, size_t len) {
  tab s;
  if (!read_header(&s, t, len)) return 4;
  if (!walk_partition(&s, s.beta, 0)) return 4;
  u32 used = 0;
  for (u32 i = 0; i < s.M; i++) {
    const u8 *p = s.blk + i * s.bs;
    if (p[0]) { used++; continue; }
    if (!all_zero(p, 0, s.bs)) return 4;
  }
  return used == s.chunks && s.orders == s.n ? 0 : 4;
}

#ifndef TUNED
// ---------------------------------------------------------------- optimised version
// Horner with one fold per step. Bounds, x <= p-1 and c < p: r1 < 2p, r2 < 3p, r3 < 4p, so r3*x + c0 < 4p^2 < 2^64.
// (A key up to 2^32-1 in bad bytes only gives a wrong value here; the walk refuses such keys by itself.)
static inline u64 fold(u64 x) { return (x & P31) + (x >> 31); }
static inline u32 poly_fold(const u32 *c, u64 x) {
  u64 r = fold(c[4] * x + c[3]);
  r = fold(r * x + c[2]);
  r = fold(r * x + c[1]);
  r = fold(fold(r * x + c[0]));
  return (u32)(r >= P31 ? r - P31 : r);
}
static inline u32 mod_M(const tab *s, u32 x) {                        // Lemire's remainder
  u64 low = s->mrec * x;
  return (u32)(((unsigned __int128)low * s->M) >> 64);
}
static inline u32 home_base(const tab *s, u32 key, u32 level) {       // (g + 65536*level) mod p
  u32 v = poly_fold(s->b, key) + 65536u * level;
  return v >= P31 ? v - P31 : v;
}
static inline u64 load64(const u8 *p) { u64 v; memcpy(&v, p, 8); return __builtin_bswap64(v); }
#define CNT_MASK (0xFFull << 48)
// Head word: level 8 | count 8 | chunk 16 | first 32. Rank: level 8 | first 32 | chunk 16.
static inline u64 rank_of(u64 hd) { return (hd >> 56 << 48) | (hd << 32 >> 16) | (hd << 16 >> 48); }

static inline const u8 *find_fast(const tab *s, u32 level, u32 first, u32 cno, u32 base) {
  u32 v = base + cno; if (v >= P31) v -= P31;
  u32 i = mod_M(s, v);
  const u8 *p = s->blk + i * s->bs, *end = s->blk + s->M * s->bs;
  u64 want = ((u64)level << 56) | ((u64)cno << 32) | first;
  u64 hd = load64(p) & ~CNT_MASK;
  if (__builtin_expect(hd == want, 1)) return p;
  u64 rw = rank_of(want);
  for (u32 step = 0; step < s->M; step++) {
    if (hd >> 56 == 0 || rank_of(hd) > rw) return 0;
    p += s->bs; if (p == end) p = s->blk;
    hd = load64(p) & ~CNT_MASK;
    if (hd == want) return p;
  }
  return 0;
}
static inline int zero_bytes(const u8 *p, const u8 *end) {            // multiple of 4 bytes
  u64 acc = 0; u32 w;
  size_t k = (size_t)(end - p);
  if (k & 4) { memcpy(&w, p, 4); acc = w; p += 4; }
  for (; p < end; p += 8) { u64 v; memcpy(&v, p, 8); acc |= v; }
  return acc == 0;
}
static inline int unused_blocks_ok(const tab *s) {
  u32 used = 0; int ok = 1;
  const u8 *p = s->blk;
  for (u32 i = 0; i < s->M; i++, p += s->bs) {
    if (p[0]) used++; else ok &= zero_bytes(p, p + s->bs);
  }
  return ok && used == s->chunks;
}

// Nodes i..cnt-1 of a level 1 chunk, none of which opens the partition. Nonzero: bad.
// A test "x < y" is kept as the sign of the 64-bit difference x - y, which costs fewer instructions than a flag.
static inline u32 leaf_nodes(tab *s, const u8 *p, u32 i, u32 cnt) {
  u64 sign = 0, last = s->last, hits = 0; const u64 d1 = s->div[1];
  const u32 *a = s->a;
  for (const u8 *nd = p + 8 + 12 * (size_t)i, *e = p + 8 + 12 * (size_t)cnt; nd < e; nd += 12) {
    u64 kt = load64(nd), key = kt >> 32, total = (u32)kt, disp = be32(nd + 8);
    sign |= (key - 1 - last) | (total - 1) | (total - disp);            // key > last, total >= 1, disp <= total
    hits += poly_fold(a, key) * d1 < d1;                                // gamma divides h(key)
    last = key;
  }
  s->last = (u32)last; s->orders += cnt - i;
  return (u32)(sign >> 63) | (hits != 0) | (last >= P31);
}
typedef u32 (*leaf_fn)(tab *, const u8 *, u32, u32);

static inline __attribute__((always_inline)) int leaf_partition(tab *s, u32 first, u32 base, leaf_fn leaf) {
  for (u32 cno = 0;; cno++) {
    const u8 *p = find_fast(s, 1, first, cno, base);
    if (!p) return cno > 0;
    u32 cnt = p[1], i = 0;
    if (cnt - 1 >= s->B) return 0;
    s->chunks++;
    if (cno == 0) {
      u32 total = be32(p + 12), disp = be32(p + 16);
      if (be32(p + 8) != first) return 0;
      if (first == 0) { if (total | disp) return 0; }
      else { if (first <= s->last || total == 0 || disp > total) return 0; s->last = first; s->orders++; }
      i = 1;
    }
    if (leaf(s, p, i, cnt)) return 0;
    if (!zero_bytes(p + 8 + 12 * (size_t)cnt, p + s->bs)) return 0;
    if (cnt < s->B) return 1;
  }
}
static inline void fetch(const tab *s, u32 base) {
  const u8 *p = s->blk + mod_M(s, base) * s->bs;
  for (size_t j = 0; j < s->bs; j += 64) __builtin_prefetch(p + j);
}
#define DEFINE_CHECK(NAME, LEAF, ATTR)                                                        \
  ATTR static int NAME##_nodes(tab *s, const u8 *p, u32 level, u32 first, u32 i0);           \
  ATTR static int NAME##_partition(tab *s, u32 level, u32 first, u32 base) {                  \
    if (level == 1) return leaf_partition(s, first, base, LEAF);                              \
    for (u32 cno = 0;; cno++) {                                                               \
      const u8 *p = find_fast(s, level, first, cno, base);                                    \
      if (!p) return cno > 0;                                                                 \
      if (p[1] - 1u >= s->B) return 0;                                                        \
      s->chunks++;                                                                            \
      if (!NAME##_nodes(s, p, level, first, cno == 0)) return 0;                              \
      if (p[1] < s->B) return 1;                                                              \
    }                                                                                         \
  }                                                                                           \
  ATTR static int NAME##_nodes(tab *s, const u8 *p, u32 level, u32 first, u32 opens) {       \
    u32 base[32], cnt = p[1], bad = 0;                                                        \
    if (opens && be32(p + 8) != first) return 0;                                              \
    for (u32 i = 0; i < cnt; i++) {                                                           \
      const u8 *nd = p + 8 + 12 * (size_t)i; u32 key = be32(nd), q;                           \
      memcpy(&q, nd + 4, 4); bad |= q; memcpy(&q, nd + 8, 4); bad |= q;                       \
      base[i] = home_base(s, key, level - 1);                                                 \
      if (i >= opens) {                                                                       \
        u32 h = poly_fold(s->a, key);                                                         \
        bad |= h * s->div[level - 1] > s->div[level - 1] - 1;                                 \
        if (level < s->beta) bad |= h * s->div[level] <= s->div[level] - 1;                   \
        bad |= (key == 0) | (key >= P31);                                                     \
      }                                                                                       \
    }                                                                                         \
    if (bad || !zero_bytes(p + 8 + 12 * (size_t)cnt, p + s->bs)) return 0;                    \
    if (level == 2) { fetch(s, base[0]); if (cnt > 1) fetch(s, base[1]); }                    \
    for (u32 i = 0; i < cnt; i++) {                                                           \
      if (level == 2 && i + 2 < cnt) fetch(s, base[i + 2]);                                   \
      if (!NAME##_partition(s, level - 1, be32(p + 8 + 12 * (size_t)i), base[i])) return 0;   \
    }                                                                                         \
    return 1;                                                                                 \
  }                                                                                           \
  ATTR int NAME(const u8 *t, size_t len) {                                                    \
    tab s;                                                                                    \
    if (!read_header(&s, t, len)) return 4;                                                   \
    if (!NAME##_partition(&s, s.beta, 0, home_base(&s, 0, s.beta))) return 4;                 \
    return unused_blocks_ok(&s) && s.orders == s.n ? 0 : 4;                                   \
  }
DEFINE_CHECK(check_fast, leaf_nodes, )

// ---------------------------------------------------------------- AVX-512 node loop (limit anchor)
#ifdef __x86_64__
#define A512 __attribute__((target("avx512f,avx512bw,avx512dq,avx512vl,bmi2,movbe")))
A512 static inline __m512i fold8(__m512i t) {
  return _mm512_add_epi64(_mm512_and_si512(t, _mm512_set1_epi64(P31)), _mm512_srli_epi64(t, 31));
}
A512 static inline __m512i below(__m512i r) {                          // r < 4p: subtract p while that lowers it
  return _mm512_min_epu64(r, _mm512_sub_epi64(r, _mm512_set1_epi64(P31)));
}
// Eight keys in 64-bit lanes; lanes of r must stay below 2^32 for vpmuludq.
A512 static inline __m512i poly8(const __m512i *c, __m512i x) {
  __m512i r = fold8(_mm512_add_epi64(_mm512_mul_epu32(c[4], x), c[3]));            // < 2p < 2^32
  r = below(below(fold8(_mm512_add_epi64(_mm512_mul_epu32(r, x), c[2]))));        // < 3p -> <= p
  r = fold8(_mm512_add_epi64(_mm512_mul_epu32(r, x), c[1]));                       // < 2p + 1
  r = fold8(_mm512_add_epi64(_mm512_mul_epu32(r, x), c[0]));                       // < 3p + 1
  return below(below(below(r)));                                                   // < p
}
A512 static u32 leaf_nodes_512(tab *s, const u8 *p, u32 i, u32 cnt) {
  const __m512i stride = _mm512_mullo_epi32(_mm512_set_epi32(15,14,13,12,11,10,9,8,7,6,5,4,3,2,1,0), _mm512_set1_epi32(3));
  const __m512i swap = _mm512_broadcast_i32x4(_mm_set_epi8(12,13,14,15,8,9,10,11,4,5,6,7,0,1,2,3));
  __m512i c[5]; for (int k = 0; k < 5; k++) c[k] = _mm512_set1_epi64(s->a[k]);
  const __m512i d1 = _mm512_set1_epi64((long long)s->div[1]), d1m = _mm512_set1_epi64((long long)(s->div[1] - 1));
  u32 bad = 0, last = s->last;
  for (u32 at = i; at < cnt; at += 16) {
    u32 k = cnt - at > 16 ? 16 : cnt - at;
    const u8 *nd = p + 8 + 12 * (size_t)at;
    u32 w = 3 * k;                                                     // words of 4 bytes to read, at most 48
    __mmask16 m0 = w >= 16 ? 0xFFFF : (1u << w) - 1, m1 = w >= 32 ? 0xFFFF : w > 16 ? (1u << (w - 16)) - 1 : 0,
              m2 = w > 32 ? (__mmask16)((1u << (w - 32)) - 1) : 0, live = k == 16 ? 0xFFFF : (1u << k) - 1;
    __m512i v0 = _mm512_shuffle_epi8(_mm512_maskz_loadu_epi32(m0, nd), swap);
    __m512i v1 = _mm512_shuffle_epi8(_mm512_maskz_loadu_epi32(m1, nd + 64), swap);
    __m512i v2 = _mm512_shuffle_epi8(_mm512_maskz_loadu_epi32(m2, nd + 128), swap);
    // word 3j+f of v0:v1:v2 into lane j; words 32.. come from v2
    #define PICK(f, out) __m512i out; { __m512i ix = _mm512_add_epi32(stride, _mm512_set1_epi32(f)); \
      __m512i lo = _mm512_permutex2var_epi32(v0, ix, v1); \
      __mmask16 hi = _mm512_cmpge_epu32_mask(ix, _mm512_set1_epi32(32)); \
      out = _mm512_mask_permutexvar_epi32(lo, hi, ix, v2); }
    PICK(0, key) PICK(1, tot) PICK(2, dis)
    __m512i prev = _mm512_alignr_epi32(key, _mm512_set1_epi32((int)last), 15);
    __mmask16 e = _mm512_cmple_epu32_mask(key, prev) | _mm512_cmpgt_epu32_mask(dis, tot) |
                  _mm512_cmpeq_epu32_mask(tot, _mm512_setzero_si512()) | _mm512_cmpge_epu32_mask(key, _mm512_set1_epi32(P31));
    __m512i h0 = poly8(c, _mm512_cvtepu32_epi64(_mm512_castsi512_si256(key)));
    __mmask16 dv = _mm512_cmple_epu64_mask(_mm512_mullo_epi64(h0, d1), d1m);
    if (k > 8) {
      __m512i h1 = poly8(c, _mm512_cvtepu32_epi64(_mm512_extracti64x4_epi64(key, 1)));
      dv |= (__mmask16)(_mm512_cmple_epu64_mask(_mm512_mullo_epi64(h1, d1), d1m) << 8);
    }
    bad |= (e | dv) & live;
    last = be32(nd + 12 * (size_t)(k - 1));
    #undef PICK
  }
  s->last = last; s->orders += cnt - i;
  return bad;
}
DEFINE_CHECK(check_avx512, leaf_nodes_512, A512)
#endif
#endif // TUNED
