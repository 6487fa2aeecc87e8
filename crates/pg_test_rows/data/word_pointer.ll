define i32 @main() {
  %p = inttoptr i64 4611686018444165120 to ptr
  %v = load i64, ptr %p
  call void @pg_out(i64 %v)
  ret i32 0
}
