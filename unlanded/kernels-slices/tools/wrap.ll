
define i32 @bike_make_key(i32 %l, ptr %p1, i64 %n1, ptr %p2, i64 %n2, ptr %p3, i64 %n3, ptr %p4, i64 %n4) #0 {
  %s1 = alloca [16 x i8], align 8
  %s2 = alloca [16 x i8], align 8
  %s3 = alloca [16 x i8], align 8
  %s4 = alloca [16 x i8], align 8
  store ptr %p1, ptr %s1, align 8
  %q1 = getelementptr i8, ptr %s1, i64 8
  store i64 %n1, ptr %q1, align 8
  store ptr %p2, ptr %s2, align 8
  %q2 = getelementptr i8, ptr %s2, i64 8
  store i64 %n2, ptr %q2, align 8
  store ptr %p3, ptr %s3, align 8
  %q3 = getelementptr i8, ptr %s3, i64 8
  store i64 %n3, ptr %q3, align 8
  store ptr %p4, ptr %s4, align 8
  %q4 = getelementptr i8, ptr %s4, i64 8
  store i64 %n4, ptr %q4, align 8
  %r = call i32 @"exchange::doors::bike_make_key"(i32 %l, ptr %s1, ptr %s2, ptr %s3, ptr %s4)
  ret i32 %r
}

define i32 @bike_wrap(i32 %l, ptr %p1, i64 %n1, ptr %p2, i64 %n2, ptr %p3, i64 %n3, ptr %p4, i64 %n4) #0 {
  %s1 = alloca [16 x i8], align 8
  %s2 = alloca [16 x i8], align 8
  %s3 = alloca [16 x i8], align 8
  %s4 = alloca [16 x i8], align 8
  store ptr %p1, ptr %s1, align 8
  %q1 = getelementptr i8, ptr %s1, i64 8
  store i64 %n1, ptr %q1, align 8
  store ptr %p2, ptr %s2, align 8
  %q2 = getelementptr i8, ptr %s2, i64 8
  store i64 %n2, ptr %q2, align 8
  store ptr %p3, ptr %s3, align 8
  %q3 = getelementptr i8, ptr %s3, i64 8
  store i64 %n3, ptr %q3, align 8
  store ptr %p4, ptr %s4, align 8
  %q4 = getelementptr i8, ptr %s4, i64 8
  store i64 %n4, ptr %q4, align 8
  %r = call i32 @"exchange::doors::bike_wrap"(i32 %l, ptr %s1, ptr %s2, ptr %s3, ptr %s4)
  ret i32 %r
}

define i32 @bike_open(i32 %l, ptr %p1, i64 %n1, ptr %p2, i64 %n2, ptr %p3, i64 %n3) #0 {
  %s1 = alloca [16 x i8], align 8
  %s2 = alloca [16 x i8], align 8
  %s3 = alloca [16 x i8], align 8
  store ptr %p1, ptr %s1, align 8
  %q1 = getelementptr i8, ptr %s1, i64 8
  store i64 %n1, ptr %q1, align 8
  store ptr %p2, ptr %s2, align 8
  %q2 = getelementptr i8, ptr %s2, i64 8
  store i64 %n2, ptr %q2, align 8
  store ptr %p3, ptr %s3, align 8
  %q3 = getelementptr i8, ptr %s3, i64 8
  store i64 %n3, ptr %q3, align 8
  %r = call i32 @"exchange::doors::bike_open"(i32 %l, ptr %s1, ptr %s2, ptr %s3)
  ret i32 %r
}
