; Keeps and prints the first number of the input where it is below 10.
declare i64 @pg_in(i64)
declare void @pg_out(i64)

@last = global i64 0

define i32 @main() {
  %a = call i64 @pg_in(i64 0)
  %c = icmp slt i64 %a, 10
  br i1 %c, label %small, label %end

small:
  store i64 %a, ptr @last
  call void @pg_out(i64 %a)
  br label %end

end:
  ret i32 0
}
