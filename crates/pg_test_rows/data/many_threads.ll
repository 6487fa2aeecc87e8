@t = global i64 0
define ptr @w(ptr %x) {
  ret ptr null
}
define i32 @main() {
entry:
  %n = call i64 @pg_in(i64 0)
  br label %c
c:
  %i = phi i64 [ 0, %entry ], [ %j, %c ]
  %1 = call i32 @pthread_create(ptr @t, ptr null, ptr @w, ptr null)
  %j = add i64 %i, 1
  %d = icmp slt i64 %j, %n
  br i1 %d, label %c, label %e
e:
  ret i32 0
}
