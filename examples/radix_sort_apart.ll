source_filename = "radix_sort_apart.c"
target datalayout = "e-m:e-p270:32:32-p271:32:32-p272:64:64-i64:64-f80:128-n8:16:32:64-S128"
target triple = "x86_64-pc-linux-gnu"

%struct.block = type { i64, [512 x i64] }
%union.pthread_barrier_t = type { i64, [24 x i8] }

@first_even = internal global %struct.block zeroinitializer, align 8
@barrier = internal global %union.pthread_barrier_t zeroinitializer, align 8
@second_even = internal global %struct.block zeroinitializer, align 8
@third_even = internal global %struct.block zeroinitializer, align 8
@first_odd = internal global %struct.block zeroinitializer, align 8
@second_odd = internal global %struct.block zeroinitializer, align 8
@third_odd = internal global %struct.block zeroinitializer, align 8

define dso_local i32 @main() #0 {
v.0:
  %v.1 = alloca i32, align 4
  %v.2 = alloca i64, align 8
  %v.3 = alloca [3 x i64], align 16
  %v.4 = alloca i32, align 4
  %v.5 = alloca i64, align 8
  store i32 0, ptr %v.1, align 4
  store i64 0, ptr %v.2, align 8
  br label %v.6
v.6:
  %v.7 = load i64, ptr %v.2, align 8
  %v.8 = call i64 @pg_in_len()
  %v.9 = icmp slt i64 %v.7, %v.8
  br i1 %v.9, label %v.10, label %v.19
v.10:
  %v.11 = load i64, ptr %v.2, align 8
  %v.12 = call i64 @pg_in(i64 noundef %v.11)
  %v.13 = and i64 %v.12, 65535
  %v.14 = load i64, ptr %v.2, align 8
  %v.15 = getelementptr inbounds [512 x i64], ptr getelementptr inbounds (%struct.block, ptr @first_even, i32 0, i32 1), i64 0, i64 %v.14
  store i64 %v.13, ptr %v.15, align 8
  br label %v.16
v.16:
  %v.17 = load i64, ptr %v.2, align 8
  %v.18 = add nsw i64 %v.17, 1
  store i64 %v.18, ptr %v.2, align 8
  br label %v.6, !llvm.loop !6
v.19:
  %v.20 = call i64 @pg_in_len()
  store i64 %v.20, ptr @first_even, align 8
  %v.21 = call i32 @pthread_barrier_init(ptr noundef @barrier, ptr noundef null, i32 noundef 3) #3
  %v.22 = getelementptr inbounds [3 x i64], ptr %v.3, i64 0, i64 0
  %v.23 = call i32 @pthread_create(ptr noundef %v.22, ptr noundef null, ptr noundef @sort_first, ptr noundef null) #3
  %v.24 = getelementptr inbounds [3 x i64], ptr %v.3, i64 0, i64 1
  %v.25 = call i32 @pthread_create(ptr noundef %v.24, ptr noundef null, ptr noundef @sort_second, ptr noundef null) #3
  %v.26 = getelementptr inbounds [3 x i64], ptr %v.3, i64 0, i64 2
  %v.27 = call i32 @pthread_create(ptr noundef %v.26, ptr noundef null, ptr noundef @sort_third, ptr noundef null) #3
  store i32 0, ptr %v.4, align 4
  br label %v.28
v.28:
  %v.29 = load i32, ptr %v.4, align 4
  %v.30 = icmp slt i32 %v.29, 3
  br i1 %v.30, label %v.31, label %v.40
v.31:
  %v.32 = load i32, ptr %v.4, align 4
  %v.33 = sext i32 %v.32 to i64
  %v.34 = getelementptr inbounds [3 x i64], ptr %v.3, i64 0, i64 %v.33
  %v.35 = load i64, ptr %v.34, align 8
  %v.36 = call i32 @pthread_join(i64 noundef %v.35, ptr noundef null)
  br label %v.37
v.37:
  %v.38 = load i32, ptr %v.4, align 4
  %v.39 = add nsw i32 %v.38, 1
  store i32 %v.39, ptr %v.4, align 4
  br label %v.28, !llvm.loop !8
v.40:
  call void @append(ptr noundef @first_even, ptr noundef @second_even)
  call void @append(ptr noundef @first_even, ptr noundef @third_even)
  store i64 0, ptr %v.5, align 8
  br label %v.41
v.41:
  %v.42 = load i64, ptr %v.5, align 8
  %v.43 = call i64 @pg_in_len()
  %v.44 = icmp slt i64 %v.42, %v.43
  br i1 %v.44, label %v.45, label %v.52
v.45:
  %v.46 = load i64, ptr %v.5, align 8
  %v.47 = getelementptr inbounds [512 x i64], ptr getelementptr inbounds (%struct.block, ptr @first_even, i32 0, i32 1), i64 0, i64 %v.46
  %v.48 = load i64, ptr %v.47, align 8
  call void @pg_out(i64 noundef %v.48)
  br label %v.49
v.49:
  %v.50 = load i64, ptr %v.5, align 8
  %v.51 = add nsw i64 %v.50, 1
  store i64 %v.51, ptr %v.5, align 8
  br label %v.41, !llvm.loop !9
v.52:
  ret i32 0
}

define internal ptr @sort_first(ptr noundef %v.0) #0 {
v.1:
  %v.2 = alloca ptr, align 8
  store ptr %v.0, ptr %v.2, align 8
  call void @sort(ptr noundef @first_even, ptr noundef @first_odd, i32 noundef 0)
  %v.3 = load ptr, ptr %v.2, align 8
  ret ptr %v.3
}

define internal ptr @sort_second(ptr noundef %v.0) #0 {
v.1:
  %v.2 = alloca ptr, align 8
  store ptr %v.0, ptr %v.2, align 8
  call void @sort(ptr noundef @second_even, ptr noundef @second_odd, i32 noundef 1)
  %v.3 = load ptr, ptr %v.2, align 8
  ret ptr %v.3
}

define internal ptr @sort_third(ptr noundef %v.0) #0 {
v.1:
  %v.2 = alloca ptr, align 8
  store ptr %v.0, ptr %v.2, align 8
  call void @sort(ptr noundef @third_even, ptr noundef @third_odd, i32 noundef 2)
  %v.3 = load ptr, ptr %v.2, align 8
  ret ptr %v.3
}

define internal void @append(ptr noundef %v.0, ptr noundef %v.1) #0 {
v.2:
  %v.3 = alloca ptr, align 8
  %v.4 = alloca ptr, align 8
  %v.5 = alloca i64, align 8
  %v.6 = alloca i64, align 8
  store ptr %v.0, ptr %v.3, align 8
  store ptr %v.1, ptr %v.4, align 8
  %v.7 = load ptr, ptr %v.3, align 8
  %v.8 = getelementptr inbounds %struct.block, ptr %v.7, i32 0, i32 0
  %v.9 = load i64, ptr %v.8, align 8
  store i64 %v.9, ptr %v.5, align 8
  store i64 0, ptr %v.6, align 8
  br label %v.10
v.10:
  %v.11 = load i64, ptr %v.6, align 8
  %v.12 = load ptr, ptr %v.4, align 8
  %v.13 = getelementptr inbounds %struct.block, ptr %v.12, i32 0, i32 0
  %v.14 = load i64, ptr %v.13, align 8
  %v.15 = icmp slt i64 %v.11, %v.14
  br i1 %v.15, label %v.16, label %v.30
v.16:
  %v.17 = load ptr, ptr %v.4, align 8
  %v.18 = getelementptr inbounds %struct.block, ptr %v.17, i32 0, i32 1
  %v.19 = load i64, ptr %v.6, align 8
  %v.20 = getelementptr inbounds [512 x i64], ptr %v.18, i64 0, i64 %v.19
  %v.21 = load i64, ptr %v.20, align 8
  %v.22 = load ptr, ptr %v.3, align 8
  %v.23 = getelementptr inbounds %struct.block, ptr %v.22, i32 0, i32 1
  %v.24 = load i64, ptr %v.5, align 8
  %v.25 = add nsw i64 %v.24, 1
  store i64 %v.25, ptr %v.5, align 8
  %v.26 = getelementptr inbounds [512 x i64], ptr %v.23, i64 0, i64 %v.24
  store i64 %v.21, ptr %v.26, align 8
  br label %v.27
v.27:
  %v.28 = load i64, ptr %v.6, align 8
  %v.29 = add nsw i64 %v.28, 1
  store i64 %v.29, ptr %v.6, align 8
  br label %v.10, !llvm.loop !10
v.30:
  %v.31 = load i64, ptr %v.5, align 8
  %v.32 = load ptr, ptr %v.3, align 8
  %v.33 = getelementptr inbounds %struct.block, ptr %v.32, i32 0, i32 0
  store i64 %v.31, ptr %v.33, align 8
  ret void
}

define internal void @sort(ptr noundef %v.0, ptr noundef %v.1, i32 noundef %v.2) #0 {
v.3:
  %v.4 = alloca ptr, align 8
  %v.5 = alloca ptr, align 8
  %v.6 = alloca i32, align 4
  %v.7 = alloca i32, align 4
  store ptr %v.0, ptr %v.4, align 8
  store ptr %v.1, ptr %v.5, align 8
  store i32 %v.2, ptr %v.6, align 4
  store i32 0, ptr %v.7, align 4
  br label %v.8
v.8:
  %v.9 = load i32, ptr %v.7, align 4
  %v.10 = icmp slt i32 %v.9, 4
  br i1 %v.10, label %v.11, label %v.24
v.11:
  %v.12 = load ptr, ptr %v.5, align 8
  %v.13 = load i32, ptr %v.6, align 4
  %v.14 = load i32, ptr %v.7, align 4
  call void @take_share(ptr noundef %v.12, ptr noundef @first_even, ptr noundef @second_even, ptr noundef @third_even, i32 noundef %v.13, i32 noundef %v.14)
  %v.15 = call i32 @pthread_barrier_wait(ptr noundef @barrier) #3
  %v.16 = load ptr, ptr %v.4, align 8
  %v.17 = load i32, ptr %v.6, align 4
  %v.18 = load i32, ptr %v.7, align 4
  %v.19 = add nsw i32 %v.18, 1
  call void @take_share(ptr noundef %v.16, ptr noundef @first_odd, ptr noundef @second_odd, ptr noundef @third_odd, i32 noundef %v.17, i32 noundef %v.19)
  %v.20 = call i32 @pthread_barrier_wait(ptr noundef @barrier) #3
  br label %v.21
v.21:
  %v.22 = load i32, ptr %v.7, align 4
  %v.23 = add nsw i32 %v.22, 2
  store i32 %v.23, ptr %v.7, align 4
  br label %v.8, !llvm.loop !11
v.24:
  ret void
}

define internal void @take_share(ptr noundef %v.0, ptr noundef %v.1, ptr noundef %v.2, ptr noundef %v.3, i32 noundef %v.4, i32 noundef %v.5) #0 {
v.6:
  %v.7 = alloca ptr, align 8
  %v.8 = alloca ptr, align 8
  %v.9 = alloca ptr, align 8
  %v.10 = alloca ptr, align 8
  %v.11 = alloca i32, align 4
  %v.12 = alloca i32, align 4
  %v.13 = alloca i32, align 4
  store ptr %v.0, ptr %v.7, align 8
  store ptr %v.1, ptr %v.8, align 8
  store ptr %v.2, ptr %v.9, align 8
  store ptr %v.3, ptr %v.10, align 8
  store i32 %v.4, ptr %v.11, align 4
  store i32 %v.5, ptr %v.12, align 4
  %v.14 = load ptr, ptr %v.7, align 8
  %v.15 = getelementptr inbounds %struct.block, ptr %v.14, i32 0, i32 0
  store i64 0, ptr %v.15, align 8
  %v.16 = load i32, ptr %v.11, align 4
  %v.17 = mul nsw i32 16, %v.16
  %v.18 = sdiv i32 %v.17, 3
  store i32 %v.18, ptr %v.13, align 4
  br label %v.19
v.19:
  %v.20 = load i32, ptr %v.13, align 4
  %v.21 = load i32, ptr %v.11, align 4
  %v.22 = add nsw i32 %v.21, 1
  %v.23 = mul nsw i32 16, %v.22
  %v.24 = sdiv i32 %v.23, 3
  %v.25 = icmp slt i32 %v.20, %v.24
  br i1 %v.25, label %v.26, label %v.45
v.26:
  %v.27 = load ptr, ptr %v.7, align 8
  %v.28 = load ptr, ptr %v.8, align 8
  %v.29 = load i32, ptr %v.12, align 4
  %v.30 = load i32, ptr %v.13, align 4
  %v.31 = sext i32 %v.30 to i64
  call void @take(ptr noundef %v.27, ptr noundef %v.28, i32 noundef %v.29, i64 noundef %v.31)
  %v.32 = load ptr, ptr %v.7, align 8
  %v.33 = load ptr, ptr %v.9, align 8
  %v.34 = load i32, ptr %v.12, align 4
  %v.35 = load i32, ptr %v.13, align 4
  %v.36 = sext i32 %v.35 to i64
  call void @take(ptr noundef %v.32, ptr noundef %v.33, i32 noundef %v.34, i64 noundef %v.36)
  %v.37 = load ptr, ptr %v.7, align 8
  %v.38 = load ptr, ptr %v.10, align 8
  %v.39 = load i32, ptr %v.12, align 4
  %v.40 = load i32, ptr %v.13, align 4
  %v.41 = sext i32 %v.40 to i64
  call void @take(ptr noundef %v.37, ptr noundef %v.38, i32 noundef %v.39, i64 noundef %v.41)
  br label %v.42
v.42:
  %v.43 = load i32, ptr %v.13, align 4
  %v.44 = add nsw i32 %v.43, 1
  store i32 %v.44, ptr %v.13, align 4
  br label %v.19, !llvm.loop !12
v.45:
  ret void
}

define internal void @take(ptr noundef %v.0, ptr noundef %v.1, i32 noundef %v.2, i64 noundef %v.3) #0 {
v.4:
  %v.5 = alloca ptr, align 8
  %v.6 = alloca ptr, align 8
  %v.7 = alloca i32, align 4
  %v.8 = alloca i64, align 8
  %v.9 = alloca i64, align 8
  %v.10 = alloca i64, align 8
  store ptr %v.0, ptr %v.5, align 8
  store ptr %v.1, ptr %v.6, align 8
  store i32 %v.2, ptr %v.7, align 4
  store i64 %v.3, ptr %v.8, align 8
  %v.11 = load ptr, ptr %v.5, align 8
  %v.12 = getelementptr inbounds %struct.block, ptr %v.11, i32 0, i32 0
  %v.13 = load i64, ptr %v.12, align 8
  store i64 %v.13, ptr %v.9, align 8
  store i64 0, ptr %v.10, align 8
  br label %v.14
v.14:
  %v.15 = load i64, ptr %v.10, align 8
  %v.16 = load ptr, ptr %v.6, align 8
  %v.17 = getelementptr inbounds %struct.block, ptr %v.16, i32 0, i32 0
  %v.18 = load i64, ptr %v.17, align 8
  %v.19 = icmp slt i64 %v.15, %v.18
  br i1 %v.19, label %v.20, label %v.48
v.20:
  %v.21 = load ptr, ptr %v.6, align 8
  %v.22 = getelementptr inbounds %struct.block, ptr %v.21, i32 0, i32 1
  %v.23 = load i64, ptr %v.10, align 8
  %v.24 = getelementptr inbounds [512 x i64], ptr %v.22, i64 0, i64 %v.23
  %v.25 = load i64, ptr %v.24, align 8
  %v.26 = load i32, ptr %v.7, align 4
  %v.27 = mul nsw i32 4, %v.26
  %v.28 = zext i32 %v.27 to i64
  %v.29 = lshr i64 %v.25, %v.28
  %v.30 = and i64 %v.29, 15
  %v.31 = load i64, ptr %v.8, align 8
  %v.32 = icmp eq i64 %v.30, %v.31
  br i1 %v.32, label %v.33, label %v.44
v.33:
  %v.34 = load ptr, ptr %v.6, align 8
  %v.35 = getelementptr inbounds %struct.block, ptr %v.34, i32 0, i32 1
  %v.36 = load i64, ptr %v.10, align 8
  %v.37 = getelementptr inbounds [512 x i64], ptr %v.35, i64 0, i64 %v.36
  %v.38 = load i64, ptr %v.37, align 8
  %v.39 = load ptr, ptr %v.5, align 8
  %v.40 = getelementptr inbounds %struct.block, ptr %v.39, i32 0, i32 1
  %v.41 = load i64, ptr %v.9, align 8
  %v.42 = add nsw i64 %v.41, 1
  store i64 %v.42, ptr %v.9, align 8
  %v.43 = getelementptr inbounds [512 x i64], ptr %v.40, i64 0, i64 %v.41
  store i64 %v.38, ptr %v.43, align 8
  br label %v.44
v.44:
  br label %v.45
v.45:
  %v.46 = load i64, ptr %v.10, align 8
  %v.47 = add nsw i64 %v.46, 1
  store i64 %v.47, ptr %v.10, align 8
  br label %v.14, !llvm.loop !13
v.48:
  %v.49 = load i64, ptr %v.9, align 8
  %v.50 = load ptr, ptr %v.5, align 8
  %v.51 = getelementptr inbounds %struct.block, ptr %v.50, i32 0, i32 0
  store i64 %v.49, ptr %v.51, align 8
  ret void
}

declare i64 @pg_in_len() #1
declare i64 @pg_in(i64 noundef) #1
declare i32 @pthread_barrier_init(ptr noundef, ptr noundef, i32 noundef) #2
declare i32 @pthread_create(ptr noundef, ptr noundef, ptr noundef, ptr noundef) #2
declare i32 @pthread_join(i64 noundef, ptr noundef) #1
declare void @pg_out(i64 noundef) #1
declare i32 @pthread_barrier_wait(ptr noundef) #2

attributes #0 = { noinline nounwind optnone uwtable "frame-pointer"="all" "min-legal-vector-width"="0" "no-trapping-math"="true" "stack-protector-buffer-size"="8" "target-cpu"="x86-64" "target-features"="+cx8,+fxsr,+mmx,+sse,+sse2,+x87" "tune-cpu"="generic" }
attributes #1 = { "frame-pointer"="all" "no-trapping-math"="true" "stack-protector-buffer-size"="8" "target-cpu"="x86-64" "target-features"="+cx8,+fxsr,+mmx,+sse,+sse2,+x87" "tune-cpu"="generic" }
attributes #2 = { nounwind "frame-pointer"="all" "no-trapping-math"="true" "stack-protector-buffer-size"="8" "target-cpu"="x86-64" "target-features"="+cx8,+fxsr,+mmx,+sse,+sse2,+x87" "tune-cpu"="generic" }
attributes #3 = { nounwind }
!llvm.module.flags = !{!0, !1, !2, !3, !4}
!llvm.ident = !{!5}
!0 = !{i32 1, !"wchar_size", i32 4}
!1 = !{i32 8, !"PIC Level", i32 2}
!2 = !{i32 7, !"PIE Level", i32 2}
!3 = !{i32 7, !"uwtable", i32 2}
!4 = !{i32 7, !"frame-pointer", i32 2}
!5 = !{!"Debian clang version 16.0.6 (15~deb12u1)"}
!6 = distinct !{!6, !7}
!7 = !{!"llvm.loop.mustprogress"}
!8 = distinct !{!8, !7}
!9 = distinct !{!9, !7}
!10 = distinct !{!10, !7}
!11 = distinct !{!11, !7}
!12 = distinct !{!12, !7}
!13 = distinct !{!13, !7}
