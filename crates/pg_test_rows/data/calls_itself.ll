define i32 @main() { %a = call i32 @main() ret i32 0 }
