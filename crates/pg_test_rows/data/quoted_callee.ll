declare void @"my f"()
define i32 @main() {
  call void @"my f"()
  ret i32 0
}
