define i32 @main() {
  %a = call i64 @pg_in(i64 0)
  %b = call i64 @pg_in(i64 1)
  %c = sdiv i64 %a, %b
  call void @pg_out(i64 %c)
  ret i32 0
}
