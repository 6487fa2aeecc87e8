source_filename = "prefix_sums.c"
target datalayout = "e-m:e-p270:32:32-p271:32:32-p272:64:64-i64:64-f80:128-n8:16:32:64-S128"
target triple = "x86_64-pc-linux-gnu"

%union.pthread_barrier_t = type { i64, [24 x i8] }

@barrier = internal global %union.pthread_barrier_t zeroinitializer, align 8
@sums = internal global [512 x i64] zeroinitializer, align 16
@totals = internal global [4 x i64] zeroinitializer, align 16

define dso_local i32 @main() #0 {
v.0:
  %v.1 = alloca i32, align 4
  %v.2 = alloca [4 x i64], align 16
  %v.3 = alloca i64, align 8
  %v.4 = alloca i32, align 4
  %v.5 = alloca i64, align 8
  store i32 0, ptr %v.1, align 4
  %v.6 = call i32 @pthread_barrier_init(ptr noundef @barrier, ptr noundef null, i32 noundef 4) #3
  store i64 0, ptr %v.3, align 8
  br label %v.7
v.7:
  %v.8 = load i64, ptr %v.3, align 8
  %v.9 = icmp slt i64 %v.8, 4
  br i1 %v.9, label %v.10, label %v.19
v.10:
  %v.11 = load i64, ptr %v.3, align 8
  %v.12 = getelementptr inbounds [4 x i64], ptr %v.2, i64 0, i64 %v.11
  %v.13 = load i64, ptr %v.3, align 8
  %v.14 = inttoptr i64 %v.13 to ptr
  %v.15 = call i32 @pthread_create(ptr noundef %v.12, ptr noundef null, ptr noundef @worker, ptr noundef %v.14) #3
  br label %v.16
v.16:
  %v.17 = load i64, ptr %v.3, align 8
  %v.18 = add nsw i64 %v.17, 1
  store i64 %v.18, ptr %v.3, align 8
  br label %v.7, !llvm.loop !6
v.19:
  store i32 0, ptr %v.4, align 4
  br label %v.20
v.20:
  %v.21 = load i32, ptr %v.4, align 4
  %v.22 = icmp slt i32 %v.21, 4
  br i1 %v.22, label %v.23, label %v.32
v.23:
  %v.24 = load i32, ptr %v.4, align 4
  %v.25 = sext i32 %v.24 to i64
  %v.26 = getelementptr inbounds [4 x i64], ptr %v.2, i64 0, i64 %v.25
  %v.27 = load i64, ptr %v.26, align 8
  %v.28 = call i32 @pthread_join(i64 noundef %v.27, ptr noundef null)
  br label %v.29
v.29:
  %v.30 = load i32, ptr %v.4, align 4
  %v.31 = add nsw i32 %v.30, 1
  store i32 %v.31, ptr %v.4, align 4
  br label %v.20, !llvm.loop !8
v.32:
  store i64 0, ptr %v.5, align 8
  br label %v.33
v.33:
  %v.34 = load i64, ptr %v.5, align 8
  %v.35 = call i64 @pg_in_len()
  %v.36 = icmp slt i64 %v.34, %v.35
  br i1 %v.36, label %v.37, label %v.44
v.37:
  %v.38 = load i64, ptr %v.5, align 8
  %v.39 = getelementptr inbounds [512 x i64], ptr @sums, i64 0, i64 %v.38
  %v.40 = load i64, ptr %v.39, align 8
  call void @pg_out(i64 noundef %v.40)
  br label %v.41
v.41:
  %v.42 = load i64, ptr %v.5, align 8
  %v.43 = add nsw i64 %v.42, 1
  store i64 %v.43, ptr %v.5, align 8
  br label %v.33, !llvm.loop !9
v.44:
  ret i32 0
}

define internal ptr @worker(ptr noundef %v.0) #0 {
v.1:
  %v.2 = alloca ptr, align 8
  %v.3 = alloca i64, align 8
  %v.4 = alloca i64, align 8
  %v.5 = alloca i64, align 8
  %v.6 = alloca i64, align 8
  %v.7 = alloca i64, align 8
  %v.8 = alloca i64, align 8
  %v.9 = alloca i64, align 8
  %v.10 = alloca i64, align 8
  %v.11 = alloca i64, align 8
  store ptr %v.0, ptr %v.2, align 8
  %v.12 = load ptr, ptr %v.2, align 8
  %v.13 = ptrtoint ptr %v.12 to i64
  store i64 %v.13, ptr %v.3, align 8
  %v.14 = call i64 @pg_in_len()
  store i64 %v.14, ptr %v.4, align 8
  %v.15 = load i64, ptr %v.4, align 8
  %v.16 = load i64, ptr %v.3, align 8
  %v.17 = mul nsw i64 %v.15, %v.16
  %v.18 = sdiv i64 %v.17, 4
  store i64 %v.18, ptr %v.5, align 8
  %v.19 = load i64, ptr %v.4, align 8
  %v.20 = load i64, ptr %v.3, align 8
  %v.21 = add nsw i64 %v.20, 1
  %v.22 = mul nsw i64 %v.19, %v.21
  %v.23 = sdiv i64 %v.22, 4
  store i64 %v.23, ptr %v.6, align 8
  store i64 0, ptr %v.7, align 8
  %v.24 = load i64, ptr %v.5, align 8
  store i64 %v.24, ptr %v.8, align 8
  br label %v.25
v.25:
  %v.26 = load i64, ptr %v.8, align 8
  %v.27 = load i64, ptr %v.6, align 8
  %v.28 = icmp slt i64 %v.26, %v.27
  br i1 %v.28, label %v.29, label %v.39
v.29:
  %v.30 = load i64, ptr %v.8, align 8
  %v.31 = call i64 @pg_in(i64 noundef %v.30)
  %v.32 = load i64, ptr %v.7, align 8
  %v.33 = add nsw i64 %v.32, %v.31
  store i64 %v.33, ptr %v.7, align 8
  %v.34 = load i64, ptr %v.8, align 8
  %v.35 = getelementptr inbounds [512 x i64], ptr @sums, i64 0, i64 %v.34
  store i64 %v.33, ptr %v.35, align 8
  br label %v.36
v.36:
  %v.37 = load i64, ptr %v.8, align 8
  %v.38 = add nsw i64 %v.37, 1
  store i64 %v.38, ptr %v.8, align 8
  br label %v.25, !llvm.loop !10
v.39:
  %v.40 = load i64, ptr %v.7, align 8
  %v.41 = load i64, ptr %v.3, align 8
  %v.42 = getelementptr inbounds [4 x i64], ptr @totals, i64 0, i64 %v.41
  store i64 %v.40, ptr %v.42, align 8
  %v.43 = call i32 @pthread_barrier_wait(ptr noundef @barrier) #3
  store i64 0, ptr %v.9, align 8
  store i64 0, ptr %v.10, align 8
  br label %v.44
v.44:
  %v.45 = load i64, ptr %v.10, align 8
  %v.46 = load i64, ptr %v.3, align 8
  %v.47 = icmp slt i64 %v.45, %v.46
  br i1 %v.47, label %v.48, label %v.57
v.48:
  %v.49 = load i64, ptr %v.10, align 8
  %v.50 = getelementptr inbounds [4 x i64], ptr @totals, i64 0, i64 %v.49
  %v.51 = load i64, ptr %v.50, align 8
  %v.52 = load i64, ptr %v.9, align 8
  %v.53 = add nsw i64 %v.52, %v.51
  store i64 %v.53, ptr %v.9, align 8
  br label %v.54
v.54:
  %v.55 = load i64, ptr %v.10, align 8
  %v.56 = add nsw i64 %v.55, 1
  store i64 %v.56, ptr %v.10, align 8
  br label %v.44, !llvm.loop !11
v.57:
  %v.58 = load i64, ptr %v.5, align 8
  store i64 %v.58, ptr %v.11, align 8
  br label %v.59
v.59:
  %v.60 = load i64, ptr %v.11, align 8
  %v.61 = load i64, ptr %v.6, align 8
  %v.62 = icmp slt i64 %v.60, %v.61
  br i1 %v.62, label %v.63, label %v.72
v.63:
  %v.64 = load i64, ptr %v.9, align 8
  %v.65 = load i64, ptr %v.11, align 8
  %v.66 = getelementptr inbounds [512 x i64], ptr @sums, i64 0, i64 %v.65
  %v.67 = load i64, ptr %v.66, align 8
  %v.68 = add nsw i64 %v.67, %v.64
  store i64 %v.68, ptr %v.66, align 8
  br label %v.69
v.69:
  %v.70 = load i64, ptr %v.11, align 8
  %v.71 = add nsw i64 %v.70, 1
  store i64 %v.71, ptr %v.11, align 8
  br label %v.59, !llvm.loop !12
v.72:
  ret ptr null
}

declare i32 @pthread_barrier_init(ptr noundef, ptr noundef, i32 noundef) #1
declare i32 @pthread_create(ptr noundef, ptr noundef, ptr noundef, ptr noundef) #1
declare i32 @pthread_join(i64 noundef, ptr noundef) #2
declare i64 @pg_in_len() #2
declare void @pg_out(i64 noundef) #2
declare i64 @pg_in(i64 noundef) #2
declare i32 @pthread_barrier_wait(ptr noundef) #1

attributes #0 = { noinline nounwind optnone uwtable "frame-pointer"="all" "min-legal-vector-width"="0" "no-trapping-math"="true" "stack-protector-buffer-size"="8" "target-cpu"="x86-64" "target-features"="+cx8,+fxsr,+mmx,+sse,+sse2,+x87" "tune-cpu"="generic" }
attributes #1 = { nounwind "frame-pointer"="all" "no-trapping-math"="true" "stack-protector-buffer-size"="8" "target-cpu"="x86-64" "target-features"="+cx8,+fxsr,+mmx,+sse,+sse2,+x87" "tune-cpu"="generic" }
attributes #2 = { "frame-pointer"="all" "no-trapping-math"="true" "stack-protector-buffer-size"="8" "target-cpu"="x86-64" "target-features"="+cx8,+fxsr,+mmx,+sse,+sse2,+x87" "tune-cpu"="generic" }
attributes #3 = { nounwind }
!llvm.module.flags = !{!0, !1, !2, !3, !4}
!llvm.ident = !{!5}
!0 = !{i32 1, !"wchar_size", i32 4}
!1 = !{i32 8, !"PIC Level", i32 2}
!2 = !{i32 7, !"PIE Level", i32 2}
!3 = !{i32 7, !"uwtable", i32 2}
!4 = !{i32 7, !"frame-pointer", i32 2}
!5 = !{!"Debian clang version 16.0.6 (15~deb12u1)"}
!6 = distinct !{!6, !7}
!7 = !{!"llvm.loop.mustprogress"}
!8 = distinct !{!8, !7}
!9 = distinct !{!9, !7}
!10 = distinct !{!10, !7}
!11 = distinct !{!11, !7}
!12 = distinct !{!12, !7}
