#include <stdint.h>
#include <stddef.h>
#include <string.h>
#include <stdlib.h>
#include <stdio.h>
#include "bike.h"
static uint8_t pub[6000], priv[1000], c[6000], c2[6000], key[32], key2[32], seed[64], m[32], rep[16];
static uint64_t hash = 1469598103934665603ull;
static void eat(const uint8_t *p, size_t n) { for (size_t i=0;i<n;i++) hash = (hash ^ p[i]) * 1099511628211ull; }
enum { DEPTH = 1<<20 };
__attribute__((noinline)) static void fill(void) { volatile uint8_t a[DEPTH]; memset((void*)a, 0xa5, DEPTH); __asm__ volatile("" :: "r"(a) : "memory"); }
__attribute__((noinline)) static size_t scan(void) { uint8_t *p = (uint8_t*)__builtin_frame_address(0) - DEPTH + 4096; size_t n = DEPTH-4096; __asm__ volatile("" : "+r"(p) :: "memory"); while (n && *p == 0xa5) { p++; n--; } return n; }
#define STACK(call) (fill(), rc |= (call), scan())
int main(int argc, char **argv)
{
    unsigned level = argv[1][0]-'0'; int rc = 0;
    size_t r = level==1?12323:level==3?24659:40973, d = level==1?71:level==3?103:137;
    size_t pn=(r+7)/8, vn=4*d+64, cn=pn+32;
    for (int i=0;i<64;i++) seed[i]=(uint8_t)(i*7+1);
    for (int i=0;i<32;i++) m[i]=(uint8_t)(i*5+3);
    if (argc < 3) {
      if (bike_make_key(level, seed, 64, pub, pn, priv, vn, rep, 16)!=0) return 1;
      if (bike_wrap(level, pub, pn, m, 32, c, cn, key, 32)!=0) return 2;
      if (bike_open(level, priv, vn, c, cn, key, 32)!=0) return 3;
      return 0;
    }
    /* outputs and stack */
    size_t s1=0,s2=0,s3=0,s0 = STACK(0), s;
    int n = argv[2][0]-48;
    for (int t=0;t<n;t++) {
      for (int i=0;i<64;i++) seed[i]=(uint8_t)(i*7+1+t*31+(t>>3)*i);
      for (int i=0;i<32;i++) m[i]=(uint8_t)(i*5+3+t*17);
      s = STACK(bike_make_key(level, seed, 64, pub, pn, priv, vn, rep, 16)); if (s>s1) s1=s;
      s = STACK(bike_wrap(level, pub, pn, m, 32, c, cn, key, 32)); if (s>s2) s2=s;
      s = STACK(bike_open(level, priv, vn, c, cn, key2, 32)); if (s>s3) s3=s;
      if (memcmp(key,key2,32)) rc |= 64;
      eat(pub,pn); eat(priv,vn); eat(rep,16); eat(c,cn); eat(key2,32);
      for (int k=0;k<5;k++) { /* damaged, random, all ones .. */
        memcpy(c2,c,cn);
        if (k==0) c2[5]^=1; 
        if (k==1) for (size_t i=0;i<40;i++) c2[i*7]^=0x11;
        if (k==2) for (size_t i=0;i+1<pn;i++) c2[i]^=(uint8_t)(i*i*37+(i>>3)*11+t);
        if (k==3) { for (size_t i=0;i+1<pn;i++) c2[i]=255; }
        if (k==4) c2[pn+3]^=4;
        rc |= bike_open(level, priv, vn, c2, cn, key2, 32); eat(key2,32);
      }
    }
    printf("level %u rc %d hash %016llx stack %lu %lu %lu\n", level, rc, (unsigned long long)hash, (unsigned long)(s1-s0), (unsigned long)(s2-s0), (unsigned long)(s3-s0));
    return 0;
}
