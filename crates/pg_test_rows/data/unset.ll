define i32 @main() {
  br label %b
a:
  %d = add i64 1, 2
  br label %b
b:
  call void @pg_out(i64 %d)
  ret i32 0
}
