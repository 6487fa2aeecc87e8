define i32 @main() {
  %a = shl i32 1, 32
  %b = sext i32 %a to i64
  call void @pg_out(i64 %b)
  %c = ashr i32 -8, 40
  %d = sext i32 %c to i64
  call void @pg_out(i64 %d)
  ret i32 0
}
