; ModuleID = 'add.c'
source_filename = "add.c"
target datalayout = "e-m:e-p270:32:32-p271:32:32-p272:64:64-i64:64-f80:128-n8:16:32:64-S128"
target triple = "x86_64-pc-linux-gnu"
%union.pthread_mutex_t = type { %struct.__pthread_mutex_s }
%struct.__pthread_mutex_s = type { i32, i32, i32, i32, i32, i16, i16, %struct.__pthread_internal_list }
%struct.__pthread_internal_list = type { ptr, ptr }
@m = dso_local global %union.pthread_mutex_t zeroinitializer, align 8
@"my total" = dso_local global i64 0, align 8
; Function Attrs: noinline nounwind optnone uwtable
define dso_local ptr @add(ptr noundef %0) #0 {
  %2 = alloca ptr, align 8
  store ptr %0, ptr %2, align 8
  %3 = call i32 @pthread_mutex_lock(ptr noundef @m) #2
  %4 = load i64, ptr @"my total", align 8
  %5 = add nsw i64 %4, 5
  store i64 %5, ptr @"my total", align 8
  %6 = call i32 @pthread_mutex_unlock(ptr noundef @m) #2
  ret ptr null
}
declare i32 @pthread_mutex_lock(ptr noundef) #1
declare i32 @pthread_mutex_unlock(ptr noundef) #1
define dso_local i32 @main() #0 {
  %1 = alloca i32, align 4
  %2 = alloca i64, align 8
  store i32 0, ptr %1, align 4
  %3 = call i32 @pthread_create(ptr noundef %2, ptr noundef null, ptr noundef @add, ptr noundef null) #2
  %4 = load i64, ptr %2, align 8
  %5 = call i32 @pthread_join(i64 noundef %4, ptr noundef null)
  %6 = load i64, ptr @"my total", align 8
  call void @pg_out(i64 noundef %6)
  ret i32 0
}
declare !callback !2 i32 @pthread_create(ptr noundef, ptr noundef, ptr noundef, ptr noundef) #1
declare i32 @pthread_join(i64 noundef, ptr noundef) #1
declare void @pg_out(i64 noundef) #1
attributes #0 = { noinline nounwind optnone uwtable "frame-pointer"="all" }
attributes #1 = { "frame-pointer"="all" }
attributes #2 = { nounwind }
!llvm.module.flags = !{!0}
!llvm.ident = !{!1}
!0 = !{i32 1, !"wchar_size", i32 4}
!1 = !{!"clang version 17.0.6"}
!2 = !{!3}
!3 = !{i64 2, i64 3, i1 false}
