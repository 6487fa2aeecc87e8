; ModuleID = 'driver/probes/texts_like_words.c'
source_filename = "driver/probes/texts_like_words.c"
target datalayout = "e-m:e-p270:32:32-p271:32:32-p272:64:64-i64:64-f80:128-n8:16:32:64-S128"
target triple = "x86_64-pc-linux-gnu"

%struct.type = type { i32 }

@__const.main.t = private unnamed_addr constant %struct.type { i32 3 }, align 4
@texts = internal global [13 x ptr] [ptr @.str.2, ptr @.str.3, ptr @.str.4, ptr @.str.5, ptr @.str.6, ptr @.str.7, ptr @.str.8, ptr @.str.9, ptr @.str.10, ptr @.str.11, ptr @.str.12, ptr @.str.13, ptr @.str.14], align 16
@.str = private unnamed_addr constant [26 x i8] c"<{ %s }> \22quoted\22 \\ %d%%\0A\00", align 1
@.str.1 = private unnamed_addr constant [4 x i8] c"a\09b\00", align 1
@.str.2 = private unnamed_addr constant [3 x i8] c"<{\00", align 1
@.str.3 = private unnamed_addr constant [12 x i8] c"select (i32\00", align 1
@.str.4 = private unnamed_addr constant [13 x i8] c"thread_local\00", align 1
@.str.5 = private unnamed_addr constant [8 x i8] c"= alias\00", align 1
@.str.6 = private unnamed_addr constant [6 x i8] c"float\00", align 1
@.str.7 = private unnamed_addr constant [16 x i8] c"external global\00", align 1
@.str.8 = private unnamed_addr constant [3 x i8] c"}>\00", align 1
@.str.9 = private unnamed_addr constant [11 x i8] c"ptrtoint (\00", align 1
@.str.10 = private unnamed_addr constant [10 x i8] c"<{ i32 }>\00", align 1
@.str.11 = private unnamed_addr constant [4 x i8] c"; x\00", align 1
@.str.12 = private unnamed_addr constant [5 x i8] c"%d %\00", align 1
@.str.13 = private unnamed_addr constant [6 x i8] c"@name\00", align 1
@.str.14 = private unnamed_addr constant [8 x i8] c"!dbg !3\00", align 1

; Function Attrs: noinline nounwind optnone uwtable
define dso_local i32 @call(i32 noundef %0) #0 {
  %2 = alloca i32, align 4
  store i32 %0, ptr %2, align 4
  %3 = load i32, ptr %2, align 4
  ret i32 %3
}

; Function Attrs: noinline nounwind optnone uwtable
define dso_local i32 @define(i32 noundef %0) #0 {
  %2 = alloca i32, align 4
  store i32 %0, ptr %2, align 4
  %3 = load i32, ptr %2, align 4
  ret i32 %3
}

; Function Attrs: noinline nounwind optnone uwtable
define dso_local i32 @main() #0 {
  %1 = alloca i32, align 4
  %2 = alloca %struct.type, align 4
  %3 = alloca i32, align 4
  store i32 0, ptr %1, align 4
  call void @llvm.memcpy.p0.p0.i64(ptr align 4 %2, ptr align 4 @__const.main.t, i64 4, i1 false)
  store i32 0, ptr %3, align 4
  br label %4

4:                                                ; preds = %14, %0
  %5 = load i32, ptr %3, align 4
  %6 = zext i32 %5 to i64
  %7 = icmp ult i64 %6, 13
  br i1 %7, label %8, label %17

8:                                                ; preds = %4
  %9 = load i32, ptr %3, align 4
  %10 = zext i32 %9 to i64
  %11 = getelementptr inbounds [13 x ptr], ptr @texts, i64 0, i64 %10
  %12 = load ptr, ptr %11, align 8
  %13 = call i32 @puts(ptr noundef %12)
  br label %14

14:                                               ; preds = %8
  %15 = load i32, ptr %3, align 4
  %16 = add i32 %15, 1
  store i32 %16, ptr %3, align 4
  br label %4, !llvm.loop !6

17:                                               ; preds = %4
  %18 = getelementptr inbounds %struct.type, ptr %2, i32 0, i32 0
  %19 = load i32, ptr %18, align 4
  %20 = call i32 @define(i32 noundef %19)
  %21 = call i32 @call(i32 noundef %20)
  %22 = call i32 (ptr, ...) @printf(ptr noundef @.str, ptr noundef @.str.1, i32 noundef %21)
  ret i32 0
}

; Function Attrs: nocallback nofree nounwind willreturn memory(argmem: readwrite)
declare void @llvm.memcpy.p0.p0.i64(ptr noalias nocapture writeonly, ptr noalias nocapture readonly, i64, i1 immarg) #1

declare i32 @puts(ptr noundef) #2

declare i32 @printf(ptr noundef, ...) #2

attributes #0 = { noinline nounwind optnone uwtable "frame-pointer"="all" "min-legal-vector-width"="0" "no-trapping-math"="true" "stack-protector-buffer-size"="8" "target-cpu"="x86-64" "target-features"="+cx8,+fxsr,+mmx,+sse,+sse2,+x87" "tune-cpu"="generic" }
attributes #1 = { nocallback nofree nounwind willreturn memory(argmem: readwrite) }
attributes #2 = { "frame-pointer"="all" "no-trapping-math"="true" "stack-protector-buffer-size"="8" "target-cpu"="x86-64" "target-features"="+cx8,+fxsr,+mmx,+sse,+sse2,+x87" "tune-cpu"="generic" }

!llvm.module.flags = !{!0, !1, !2, !3, !4}
!llvm.ident = !{!5}

!0 = !{i32 1, !"wchar_size", i32 4}
!1 = !{i32 8, !"PIC Level", i32 2}
!2 = !{i32 7, !"PIE Level", i32 2}
!3 = !{i32 7, !"uwtable", i32 2}
!4 = !{i32 7, !"frame-pointer", i32 2}
!5 = !{!"Debian clang version 16.0.6 (15~deb12u1)"}
!6 = distinct !{!6, !7}
!7 = !{!"llvm.loop.mustprogress"}
