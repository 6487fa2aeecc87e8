; ModuleID = 'driver/probes/names_like_words.c'
source_filename = "driver/probes/names_like_words.c"
target datalayout = "e-m:e-p270:32:32-p271:32:32-p272:64:64-i64:64-f80:128-n8:16:32:64-S128"
target triple = "x86_64-pc-linux-gnu"

%struct.half = type { i32, i32 }
%struct.i128 = type { i64 }

@__const.main.h = private unnamed_addr constant %struct.half { i32 1, i32 2 }, align 4
@__const.main.wide = private unnamed_addr constant %struct.i128 { i64 6 }, align 8
@i128 = internal global i32 4, align 4
@returned = internal global [2 x i32] [i32 1, i32 2], align 4
@metadata = internal global i32 5, align 4
@undef = internal global i32 6, align 4
@nonnull = internal global i32 7, align 4
@cmpxchg = internal global i32 3, align 4

; Function Attrs: noinline nounwind optnone uwtable
define dso_local i32 @main() #0 {
  %1 = alloca i32, align 4
  %2 = alloca %struct.half, align 4
  %3 = alloca %struct.i128, align 8
  store i32 0, ptr %1, align 4
  call void @llvm.memcpy.p0.p0.i64(ptr align 4 %2, ptr align 4 @__const.main.h, i64 8, i1 false)
  call void @llvm.memcpy.p0.p0.i64(ptr align 8 %3, ptr align 8 @__const.main.wide, i64 8, i1 false)
  %4 = getelementptr inbounds %struct.i128, ptr %3, i32 0, i32 0
  call void @fence(ptr noundef %4)
  call void @readonly(ptr noundef @i128)
  call void @readonly(ptr noundef @returned)
  %5 = load i64, ptr %2, align 4
  %6 = call i32 @half(i64 %5)
  %7 = sext i32 %6 to i64
  call void @pg_out(i64 noundef %7)
  %8 = call i32 @resume(i32 noundef 3)
  %9 = call i32 @invoke(i32 noundef 4)
  %10 = add nsw i32 %8, %9
  %11 = call i32 @select(i32 noundef 5, i32 noundef 2)
  %12 = add nsw i32 %10, %11
  %13 = sext i32 %12 to i64
  call void @pg_out(i64 noundef %13)
  %14 = call i64 @ptrtoint(ptr noundef @i128)
  %15 = call i32 @addrspacecast(i32 noundef 1)
  %16 = sext i32 %15 to i64
  %17 = add nsw i64 %14, %16
  %18 = call i32 @sub(i32 noundef 9, i32 noundef 4)
  %19 = sext i32 %18 to i64
  %20 = add nsw i64 %17, %19
  call void @pg_out(i64 noundef %20)
  %21 = call i32 @atomicrmw(ptr noundef %3)
  %22 = load i32, ptr @metadata, align 4
  %23 = add nsw i32 %21, %22
  %24 = load i32, ptr @undef, align 4
  %25 = add nsw i32 %23, %24
  %26 = load i32, ptr @nonnull, align 4
  %27 = add nsw i32 %25, %26
  %28 = load i32, ptr @returned, align 4
  %29 = add nsw i32 %27, %28
  %30 = sext i32 %29 to i64
  call void @pg_out(i64 noundef %30)
  br label %31

31:                                               ; preds = %0
  ret i32 0
}

; Function Attrs: nocallback nofree nounwind willreturn memory(argmem: readwrite)
declare void @llvm.memcpy.p0.p0.i64(ptr noalias nocapture writeonly, ptr noalias nocapture readonly, i64, i1 immarg) #1

; Function Attrs: noinline nounwind optnone uwtable
define internal void @fence(ptr noundef %0) #0 {
  %2 = alloca ptr, align 8
  store ptr %0, ptr %2, align 8
  %3 = load ptr, ptr %2, align 8
  %4 = load i64, ptr %3, align 8
  %5 = add nsw i64 %4, 1
  store i64 %5, ptr %3, align 8
  ret void
}

; Function Attrs: noinline nounwind optnone uwtable
define internal void @readonly(ptr noundef %0) #0 {
  %2 = alloca ptr, align 8
  store ptr %0, ptr %2, align 8
  %3 = load i32, ptr @cmpxchg, align 4
  %4 = load ptr, ptr %2, align 8
  %5 = load i32, ptr %4, align 4
  %6 = add nsw i32 %5, %3
  store i32 %6, ptr %4, align 4
  ret void
}

declare void @pg_out(i64 noundef) #2

; Function Attrs: noinline nounwind optnone uwtable
define internal i32 @half(i64 %0) #0 {
  %2 = alloca %struct.half, align 4
  store i64 %0, ptr %2, align 4
  %3 = getelementptr inbounds %struct.half, ptr %2, i32 0, i32 0
  %4 = load i32, ptr %3, align 4
  %5 = getelementptr inbounds %struct.half, ptr %2, i32 0, i32 1
  %6 = load i32, ptr %5, align 4
  %7 = add nsw i32 %4, %6
  ret i32 %7
}

; Function Attrs: noinline nounwind optnone uwtable
define internal i32 @resume(i32 noundef %0) #0 {
  %2 = alloca i32, align 4
  store i32 %0, ptr %2, align 4
  %3 = load i32, ptr %2, align 4
  %4 = icmp sgt i32 %3, 0
  br i1 %4, label %5, label %8

5:                                                ; preds = %1
  %6 = load i32, ptr %2, align 4
  %7 = sub nsw i32 %6, 1
  br label %9

8:                                                ; preds = %1
  br label %9

9:                                                ; preds = %8, %5
  %10 = phi i32 [ %7, %5 ], [ 0, %8 ]
  ret i32 %10
}

; Function Attrs: noinline nounwind optnone uwtable
define internal i32 @invoke(i32 noundef %0) #0 {
  %2 = alloca i32, align 4
  store i32 %0, ptr %2, align 4
  %3 = load i32, ptr %2, align 4
  %4 = mul nsw i32 %3, 2
  ret i32 %4
}

; Function Attrs: noinline nounwind optnone uwtable
define internal i32 @select(i32 noundef %0, i32 noundef %1) #0 {
  %3 = alloca i32, align 4
  %4 = alloca i32, align 4
  store i32 %0, ptr %3, align 4
  store i32 %1, ptr %4, align 4
  %5 = load i32, ptr %3, align 4
  %6 = load i32, ptr %4, align 4
  %7 = icmp slt i32 %5, %6
  br i1 %7, label %8, label %10

8:                                                ; preds = %2
  %9 = load i32, ptr %3, align 4
  br label %12

10:                                               ; preds = %2
  %11 = load i32, ptr %4, align 4
  br label %12

12:                                               ; preds = %10, %8
  %13 = phi i32 [ %9, %8 ], [ %11, %10 ]
  ret i32 %13
}

; Function Attrs: noinline nounwind optnone uwtable
define internal i64 @ptrtoint(ptr noundef %0) #0 {
  %2 = alloca ptr, align 8
  store ptr %0, ptr %2, align 8
  %3 = load ptr, ptr %2, align 8
  %4 = load i32, ptr %3, align 4
  %5 = sext i32 %4 to i64
  ret i64 %5
}

; Function Attrs: noinline nounwind optnone uwtable
define internal i32 @addrspacecast(i32 noundef %0) #0 {
  %2 = alloca i32, align 4
  store i32 %0, ptr %2, align 4
  %3 = load i32, ptr %2, align 4
  %4 = add nsw i32 %3, 10
  ret i32 %4
}

; Function Attrs: noinline nounwind optnone uwtable
define internal i32 @sub(i32 noundef %0, i32 noundef %1) #0 {
  %3 = alloca i32, align 4
  %4 = alloca i32, align 4
  store i32 %0, ptr %3, align 4
  store i32 %1, ptr %4, align 4
  %5 = load i32, ptr %3, align 4
  %6 = load i32, ptr %4, align 4
  %7 = sub nsw i32 %5, %6
  ret i32 %7
}

; Function Attrs: noinline nounwind optnone uwtable
define internal i32 @atomicrmw(ptr noundef %0) #0 {
  %2 = alloca ptr, align 8
  store ptr %0, ptr %2, align 8
  %3 = load ptr, ptr %2, align 8
  %4 = getelementptr inbounds %struct.i128, ptr %3, i32 0, i32 0
  %5 = load i64, ptr %4, align 8
  %6 = trunc i64 %5 to i32
  ret i32 %6
}

attributes #0 = { noinline nounwind optnone uwtable "frame-pointer"="all" "min-legal-vector-width"="0" "no-trapping-math"="true" "stack-protector-buffer-size"="8" "target-cpu"="x86-64" "target-features"="+cx8,+fxsr,+mmx,+sse,+sse2,+x87" "tune-cpu"="generic" }
attributes #1 = { nocallback nofree nounwind willreturn memory(argmem: readwrite) }
attributes #2 = { "frame-pointer"="all" "no-trapping-math"="true" "stack-protector-buffer-size"="8" "target-cpu"="x86-64" "target-features"="+cx8,+fxsr,+mmx,+sse,+sse2,+x87" "tune-cpu"="generic" }

!llvm.module.flags = !{!0, !1, !2, !3, !4}
!llvm.ident = !{!5}

!0 = !{i32 1, !"wchar_size", i32 4}
!1 = !{i32 8, !"PIC Level", i32 2}
!2 = !{i32 7, !"PIE Level", i32 2}
!3 = !{i32 7, !"uwtable", i32 2}
!4 = !{i32 7, !"frame-pointer", i32 2}
!5 = !{!"Debian clang version 16.0.6 (15~deb12u1)"}
