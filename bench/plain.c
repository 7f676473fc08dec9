// The job of bench/fresh by hand: reads each file of each folder below src/, trims it, joins those of a folder by commas and the folders by newlines, and
// writes out/all, in the order in which the build lists them. `plain -s` hashes each file by SHA-256 too, as the build does, and syncs what it wrote.
#include <dirent.h>
#include <fcntl.h>
#include <stdint.h>
#include <stdio.h>
#include <stdlib.h>
#include <string.h>
#include <sys/stat.h>
#include <unistd.h>

static const uint32_t K[64] = {
    0x428a2f98, 0x71374491, 0xb5c0fbcf, 0xe9b5dba5, 0x3956c25b, 0x59f111f1, 0x923f82a4, 0xab1c5ed5, 0xd807aa98, 0x12835b01, 0x243185be, 0x550c7dc3, 0x72be5d74,
    0x80deb1fe, 0x9bdc06a7, 0xc19bf174, 0xe49b69c1, 0xefbe4786, 0x0fc19dc6, 0x240ca1cc, 0x2de92c6f, 0x4a7484aa, 0x5cb0a9dc, 0x76f988da, 0x983e5152, 0xa831c66d,
    0xb00327c8, 0xbf597fc7, 0xc6e00bf3, 0xd5a79147, 0x06ca6351, 0x14292967, 0x27b70a85, 0x2e1b2138, 0x4d2c6dfc, 0x53380d13, 0x650a7354, 0x766a0abb, 0x81c2c92e,
    0x92722c85, 0xa2bfe8a1, 0xa81a664b, 0xc24b8b70, 0xc76c51a3, 0xd192e819, 0xd6990624, 0xf40e3585, 0x106aa070, 0x19a4c116, 0x1e376c08, 0x2748774c, 0x34b0bcb5,
    0x391c0cb3, 0x4ed8aa4a, 0x5b9cca4f, 0x682e6ff3, 0x748f82ee, 0x78a5636f, 0x84c87814, 0x8cc70208, 0x90befffa, 0xa4506ceb, 0xbef9a3f7, 0xc67178f2};

static uint32_t turned(uint32_t x, int n) { return x >> n | x << (32 - n); }

static void compress(uint32_t h[8], const unsigned char *block) {
  uint32_t w[64], s[8];
  for (int i = 0; i < 16; i++) w[i] = (uint32_t)block[4 * i] << 24 | block[4 * i + 1] << 16 | block[4 * i + 2] << 8 | block[4 * i + 3];
  for (int i = 16; i < 64; i++) {
    uint32_t a = turned(w[i - 15], 7) ^ turned(w[i - 15], 18) ^ w[i - 15] >> 3, b = turned(w[i - 2], 17) ^ turned(w[i - 2], 19) ^ w[i - 2] >> 10;
    w[i] = w[i - 16] + a + w[i - 7] + b;
  }
  memcpy(s, h, sizeof s);
  for (int i = 0; i < 64; i++) {
    uint32_t e = turned(s[4], 6) ^ turned(s[4], 11) ^ turned(s[4], 25), a = turned(s[0], 2) ^ turned(s[0], 13) ^ turned(s[0], 22);
    uint32_t t = s[7] + e + ((s[4] & s[5]) ^ (~s[4] & s[6])) + K[i] + w[i], u = a + ((s[0] & s[1]) ^ (s[0] & s[2]) ^ (s[1] & s[2]));
    memmove(s + 1, s, 7 * sizeof *s);
    s[4] += t;
    s[0] = t + u;
  }
  for (int i = 0; i < 8; i++) h[i] += s[i];
}

// The first word of the SHA-256 of some bytes.
static uint32_t hashed(const char *bytes, size_t len) {
  uint32_t h[8] = {0x6a09e667, 0xbb67ae85, 0x3c6ef372, 0xa54ff53a, 0x510e527f, 0x9b05688c, 0x1f83d9ab, 0x5be0cd19};
  unsigned char tail[128] = {0};
  size_t at = 0;
  for (; at + 64 <= len; at += 64) compress(h, (const unsigned char *)bytes + at);
  memcpy(tail, bytes + at, len - at);
  tail[len - at] = 128;
  size_t end = len - at < 56 ? 64 : 128;
  for (int i = 0; i < 8; i++) tail[end - 1 - i] = (unsigned char)(len * 8 >> 8 * i);
  for (size_t i = 0; i < end; i += 64) compress(h, tail + i);
  return h[0];
}

static int shown(const struct dirent *entry) { return entry->d_name[0] != '.'; }

// The order of a listing.
static int by_bytes(const struct dirent **a, const struct dirent **b) { return strcmp((*a)->d_name, (*b)->d_name); }

static char *text;
static size_t length, room;

static void put(const char *bytes, size_t len) {
  while (room < length + len) text = realloc(text, room = room ? 2 * room : 4096);
  memcpy(text + length, bytes, len);
  length += len;
}

static int fail(const char *what) {
  perror(what);
  exit(1);
}

int main(int count, char **words) {
  int hashes = count > 1 && !strcmp(words[1], "-s"), folders, files;
  uint32_t sum = 0;
  struct dirent **folder, **file;
  if ((folders = scandir("src", &folder, shown, by_bytes)) < 0) fail("src");
  for (int i = 0; i < folders; i++) {
    char place[4096], bytes[65536];
    snprintf(place, sizeof place, "src/%s", folder[i]->d_name);
    if ((files = scandir(place, &file, shown, by_bytes)) < 0) fail(place);
    if (i) put("\n", 1);
    for (int j = 0; j < files; j++) {
      snprintf(place, sizeof place, "src/%s/%s", folder[i]->d_name, file[j]->d_name);
      int from = open(place, O_RDONLY);
      ssize_t len = from < 0 ? -1 : read(from, bytes, sizeof bytes);
      if (len < 0) fail(place);
      close(from);
      if (hashes) sum = 31 * sum + hashed(bytes, (size_t)len);
      char *start = bytes, *end = bytes + len;
      while (start < end && strchr(" \t\r\n", *start)) start++;
      while (start < end && strchr(" \t\r\n", end[-1])) end--;
      if (j) put(",", 1);
      put(start, (size_t)(end - start));
      free(file[j]);
    }
    free(file);
  }
  mkdir("out", 0777);
  int to = open("out/all", O_WRONLY | O_CREAT | O_TRUNC, 0666);
  if (to < 0 || write(to, text, length) != (ssize_t)length) fail("out/all");
  if (hashes && (fsync(to) || fsync(open("out", O_RDONLY)))) fail("sync");
  close(to);
  printf("%zu bytes %08x\n", length, sum);
}
