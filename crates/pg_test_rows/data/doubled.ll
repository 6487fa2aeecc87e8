@a = global i64 0
@a = global i64 1
