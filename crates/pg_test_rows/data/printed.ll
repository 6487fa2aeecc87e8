define i32 @main() {
  %1 = call i32 @putchar(i32 97)
  %2 = call i32 @putchar(i32 61)
  %a = call i64 @pg_in(i64 0)
  call void @pg_print(i64 %a)
  %3 = call i32 @putchar(i32 32)
  %4 = call i32 @putchar(i32 98)
  %5 = call i32 @putchar(i32 61)
  %b = call i64 @pg_in(i64 1)
  call void @pg_print(i64 %b)
  %6 = call i32 @putchar(i32 10)
  ret i32 0
}
