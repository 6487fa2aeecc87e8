define i32 @main() {
  %a = add nsw i8 127, 1
  %b = sext i8 %a to i64
  call void @pg_out(i64 %b)
  ret i32 0
}
