use exchange::doors::*;
fn eat(h:&mut u64,p:&[u8]){ for &b in p { *h=(*h^b as u64).wrapping_mul(1099511628211); } }
fn main(){
  for level in [1u32,3,5] {
    let (r,d)= match level {1=>(12323usize,71usize),3=>(24659,103),_=>(40973,137)};
    let (pn,vn)=((r+7)/8,4*d+64); let cn=pn+32; let mut h=1469598103934665603u64; let mut rc=0;
    for t in 0..4usize {
      let seed:Vec<u8>=(0..64usize).map(|i|((i*7+1+t*31+(t>>3)*i)&255) as u8).collect();
      let m:Vec<u8>=(0..32usize).map(|i|((i*5+3+t*17)&255) as u8).collect();
      let (mut p,mut v,mut rep,mut c,mut k,mut k2)=(vec![0u8;pn],vec![0u8;vn],vec![0u8;16],vec![0u8;cn],vec![0u8;32],vec![0u8;32]);
      rc|=bike_make_key(level,&seed,&mut p,&mut v,&mut rep); rc|=bike_wrap(level,&p,&m,&mut c,&mut k); rc|=bike_open(level,&v,&c,&mut k2);
      assert_eq!(k,k2); eat(&mut h,&p);eat(&mut h,&v);eat(&mut h,&rep);eat(&mut h,&c);eat(&mut h,&k2);
      for q in 0..5 { let mut c2=c.clone();
        if q==0 {c2[5]^=1} if q==1 {for i in 0..40{c2[i*7]^=0x11}} 
        if q==2 {for i in 0..pn-1 {c2[i]^=((i.wrapping_mul(i).wrapping_mul(37)+(i>>3)*11+t)&255) as u8}}
        if q==3 {for i in 0..pn-1 {c2[i]=255}} if q==4 {c2[pn+3]^=4}
        rc|=bike_open(level,&v,&c2,&mut k2); eat(&mut h,&k2); }
    }
    println!("level {} rc {} hash {:016x}",level,rc,h);
  }
}
