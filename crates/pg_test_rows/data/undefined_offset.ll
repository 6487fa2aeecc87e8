@a = global [4 x i64] zeroinitializer
define i32 @main() {
entry:
  %n = call i64 @pg_in(i64 0)
  %q = sdiv i64 8, %n
  %p = getelementptr i64, ptr @a, i64 %q
  store i64 1, ptr %p
  ret i32 0
}
