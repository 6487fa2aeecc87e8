declare i32 @printf(ptr, ...)
@s = constant [2 x i8] c"a\00"
define i32 @main() {
  %1 = call i32 (ptr, ...) @printf(ptr @s)
  ret i32 0
}
