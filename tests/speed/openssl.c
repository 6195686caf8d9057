/* openssl wrap|open K: the 10,000 wraps or openings of 36 octets of `speed`. openssl rekey K COUNT: the openings of so many rekeys with 8 ESP
   SAs and 32 copies of a Rekey SA's key, keys of K octets: 8 keys of K + 4 octets under one key, and 32 of 2K + 4 octets each under another.
   By OpenSSL 3's AES-WRAP-PAD; the cipher is fetched and the context made once, and each key that wraps is set where it is first used.
   openssl gcm K OCTETS COUNT: so many openings of a sealed text of OCTETS octets by AES-GCM, with 32 octets of additional data; key and
   nonce are set for each. Prints the checksum, and the processor time of the loop in microseconds. */
#include <openssl/evp.h>
#include <stdio.h>
#include <stdlib.h>
#include <string.h>
#include <time.h>

static EVP_CIPHER *cipher;
static EVP_CIPHER_CTX *context;
static unsigned sum;

/* Wraps or opens n octets into the room, under this key or, where there is none, under the one of before. Answers the count. */
static int turn(int wraps, const unsigned char *key, const unsigned char *in, int n, unsigned char *room) {
  int count = 0;
  if (!EVP_CipherInit_ex2(context, key ? cipher : NULL, key, NULL, wraps, NULL)) exit(2);
  if (!EVP_CipherUpdate(context, room, &count, in, n)) exit(2);
  return count;
}

static void add(const unsigned char *room, int n) {
  for (int i = 0; i < n; i++) sum = 31 * sum + room[i];
}

/* The openings of `count` rekeys. */
static void rekeys(int size, int count) {
  unsigned char keys[33][32], plain[68], esp[80], copies[32][80], room[80];
  int espOctets = 0, copyOctets = 0;
  for (int k = 0; k < 33; k++) for (int i = 0; i < 32; i++) keys[k][i] = 7 * i + 3 * k + size;
  for (int i = 0; i < 68; i++) plain[i] = 13 * i + 36;
  espOctets = turn(1, keys[0], plain, size + 4, esp);
  for (int k = 0; k < 32; k++) copyOctets = turn(1, keys[k + 1], plain, 2 * size + 4, copies[k]);
  clock_t start = clock();
  for (int rekey = 0; rekey < count; rekey++) {
    for (int k = 0; k < 8; k++) add(room, turn(0, k ? NULL : keys[0], esp, espOctets, room));
    for (int k = 0; k < 32; k++) add(room, turn(0, keys[k + 1], copies[k], copyOctets, room));
  }
  printf("%u %ld\n", sum, (long)((clock() - start) * 1000000.0 / CLOCKS_PER_SEC));
}

/* The openings of `count` sealed texts, whose tag is judged. */
static void texts(int size, int octets, int count) {
  static unsigned char key[32], nonce[12], head[32], plain[16384], sealed[16384], room[16384], tag[16];
  int n = 0;
  char name[32];
  if (octets > 16384) exit(2);
  for (int i = 0; i < 32; i++) key[i] = 7 * i + size;
  for (int i = 0; i < octets; i++) plain[i] = 13 * i + 36;
  snprintf(name, sizeof name, "AES-%d-GCM", 8 * size);
  cipher = EVP_CIPHER_fetch(NULL, name, NULL);
  if (!cipher || !EVP_CipherInit_ex2(context, cipher, key, nonce, 1, NULL)) exit(2);
  if (!EVP_CipherUpdate(context, NULL, &n, head, sizeof head) || !EVP_CipherUpdate(context, sealed, &n, plain, octets)) exit(2);
  if (!EVP_CipherFinal_ex(context, room, &n) || !EVP_CIPHER_CTX_ctrl(context, EVP_CTRL_AEAD_GET_TAG, 16, tag)) exit(2);
  clock_t start = clock();
  for (int i = 0; i < count; i++) {
    if (!EVP_CipherInit_ex2(context, cipher, key, nonce, 0, NULL)) exit(2);
    if (!EVP_CIPHER_CTX_ctrl(context, EVP_CTRL_AEAD_SET_TAG, 16, tag)) exit(2);
    if (!EVP_CipherUpdate(context, NULL, &n, head, sizeof head) || !EVP_CipherUpdate(context, room, &n, sealed, octets)) exit(2);
    if (EVP_CipherFinal_ex(context, room + octets, &n) <= 0) exit(2);
    add(room, 16);
  }
  printf("%u %ld\n", sum, (long)((clock() - start) * 1000000.0 / CLOCKS_PER_SEC));
}

int main(int argc, char **argv) {
  int size = argc >= 3 ? atoi(argv[2]) : 0, opens = argc == 3 && strcmp(argv[1], "open") == 0, end;
  unsigned char key[32], plain[36], wrapped[64], room[64];
  char name[32];
  for (int i = 0; i < 32; i++) key[i] = 7 * i + size;
  for (int i = 0; i < 36; i++) plain[i] = i < 4 ? 0 : 13 * i + 36;
  context = EVP_CIPHER_CTX_new();
  if (!context) return 2;
  if (argc == 5) {
    texts(size, atoi(argv[3]), atoi(argv[4]));
    return 0;
  }
  snprintf(name, sizeof name, "AES-%d-WRAP-PAD", 8 * size);
  cipher = EVP_CIPHER_fetch(NULL, name, NULL);
  if (!cipher) return 2;
  if (argc == 4) {
    rekeys(size, atoi(argv[3]));
    return 0;
  }
  end = turn(1, key, plain, 36, wrapped);
  clock_t start = clock();
  for (int i = 0; i < 10000; i++) {
    if (!opens) plain[2] = i / 256, plain[3] = i;
    add(room, opens ? turn(0, key, wrapped, end, room) : turn(1, key, plain, 36, room));
  }
  printf("%u %ld\n", sum, (long)((clock() - start) * 1000000.0 / CLOCKS_PER_SEC));
  return 0;
}
