#include <stdint.h>
#include <stddef.h>
#include <string.h>
#include <stdlib.h>
#include <stdio.h>
#include "bike.h"
#include "memcheck.h"
static uint8_t pub[6000], priv[1000], c[6000], key[32], seed[64], m[32], rep[16];
static void done(uint32_t a) { mark_public(&a, 4); if (a) exit(9); }
static uint64_t st = 0x9e3779b97f4a7c15;
static void fill_(uint8_t *b, size_t n) { for (size_t i=0;i<n;i++){ st^=st<<13; st^=st>>7; st^=st<<17; b[i]=(uint8_t)(st>>32);} }
int main(void)
{
  for (unsigned level=1; level<=5; level+=2) {
    size_t r = level==1?12323:level==3?24659:40973, d = level==1?71:level==3?103:137;
    size_t pn=(r+7)/8, vn=4*d+64, cn=pn+32;
    fill_(seed,64); mark_secret(seed,64);
    done(bike_make_key(level, seed, 64, pub, pn, priv, vn, rep, 16)); mark_public(pub,pn);
    fill_(m,32); mark_secret(m,32);
    done(bike_wrap(level, pub, pn, m, 32, c, cn, key, 32)); mark_public(c,cn);
    for (int k=0;k<3;k++) {
      if (k==1) c[100]^=1;
      if (k==2) { fill_(c,cn); c[pn-1] &= level==5?0x1f:7; }
      mark_secret(priv,vn);
      done(bike_open(level, priv, vn, c, cn, key, 32));
    }
  }
  return 0;
}
