source_filename = "extremes_apart.c"
target datalayout = "e-m:e-p270:32:32-p271:32:32-p272:64:64-i64:64-f80:128-n8:16:32:64-S128"
target triple = "x86_64-pc-linux-gnu"

%struct.result = type { i64, i64, i64 }

@numbers = internal global [512 x i64] zeroinitializer, align 16
@low = internal global %struct.result zeroinitializer, align 8
@high = internal global %struct.result zeroinitializer, align 8

define dso_local i32 @main() #0 {
v.0:
  %v.1 = alloca i32, align 4
  %v.2 = alloca [2 x i64], align 16
  %v.3 = alloca i64, align 8
  store i32 0, ptr %v.1, align 4
  store i64 0, ptr %v.3, align 8
  br label %v.4
v.4:
  %v.5 = load i64, ptr %v.3, align 8
  %v.6 = call i64 @pg_in_len()
  %v.7 = icmp slt i64 %v.5, %v.6
  br i1 %v.7, label %v.8, label %v.16
v.8:
  %v.9 = load i64, ptr %v.3, align 8
  %v.10 = call i64 @pg_in(i64 noundef %v.9)
  %v.11 = load i64, ptr %v.3, align 8
  %v.12 = getelementptr inbounds [512 x i64], ptr @numbers, i64 0, i64 %v.11
  store i64 %v.10, ptr %v.12, align 8
  br label %v.13
v.13:
  %v.14 = load i64, ptr %v.3, align 8
  %v.15 = add nsw i64 %v.14, 1
  store i64 %v.15, ptr %v.3, align 8
  br label %v.4, !llvm.loop !6
v.16:
  %v.17 = getelementptr inbounds [2 x i64], ptr %v.2, i64 0, i64 0
  %v.18 = call i32 @pthread_create(ptr noundef %v.17, ptr noundef null, ptr noundef @look_low, ptr noundef null) #3
  %v.19 = getelementptr inbounds [2 x i64], ptr %v.2, i64 0, i64 1
  %v.20 = call i32 @pthread_create(ptr noundef %v.19, ptr noundef null, ptr noundef @look_high, ptr noundef null) #3
  %v.21 = getelementptr inbounds [2 x i64], ptr %v.2, i64 0, i64 0
  %v.22 = load i64, ptr %v.21, align 16
  %v.23 = call i32 @pthread_join(i64 noundef %v.22, ptr noundef null)
  %v.24 = getelementptr inbounds [2 x i64], ptr %v.2, i64 0, i64 1
  %v.25 = load i64, ptr %v.24, align 8
  %v.26 = call i32 @pthread_join(i64 noundef %v.25, ptr noundef null)
  %v.27 = load i64, ptr @low, align 8
  %v.28 = load i64, ptr @high, align 8
  %v.29 = icmp slt i64 %v.27, %v.28
  br i1 %v.29, label %v.30, label %v.32
v.30:
  %v.31 = load i64, ptr @low, align 8
  br label %v.34
v.32:
  %v.33 = load i64, ptr @high, align 8
  br label %v.34
v.34:
  %v.35 = phi i64 [ %v.31, %v.30 ], [ %v.33, %v.32 ]
  call void @pg_out(i64 noundef %v.35)
  %v.36 = load i64, ptr getelementptr inbounds (%struct.result, ptr @low, i32 0, i32 1), align 8
  %v.37 = load i64, ptr getelementptr inbounds (%struct.result, ptr @high, i32 0, i32 1), align 8
  %v.38 = icmp sgt i64 %v.36, %v.37
  br i1 %v.38, label %v.39, label %v.41
v.39:
  %v.40 = load i64, ptr getelementptr inbounds (%struct.result, ptr @low, i32 0, i32 1), align 8
  br label %v.43
v.41:
  %v.42 = load i64, ptr getelementptr inbounds (%struct.result, ptr @high, i32 0, i32 1), align 8
  br label %v.43
v.43:
  %v.44 = phi i64 [ %v.40, %v.39 ], [ %v.42, %v.41 ]
  call void @pg_out(i64 noundef %v.44)
  %v.45 = load i64, ptr getelementptr inbounds (%struct.result, ptr @low, i32 0, i32 2), align 8
  %v.46 = load i64, ptr getelementptr inbounds (%struct.result, ptr @high, i32 0, i32 2), align 8
  %v.47 = or i64 %v.45, %v.46
  call void @pg_out(i64 noundef %v.47)
  ret i32 0
}

define internal ptr @look_low(ptr noundef %v.0) #0 {
v.1:
  %v.2 = alloca ptr, align 8
  store ptr %v.0, ptr %v.2, align 8
  %v.3 = call i64 @pg_in_len()
  %v.4 = sdiv i64 %v.3, 2
  call void @look(ptr noundef @low, i64 noundef 0, i64 noundef %v.4)
  %v.5 = load ptr, ptr %v.2, align 8
  ret ptr %v.5
}

define internal ptr @look_high(ptr noundef %v.0) #0 {
v.1:
  %v.2 = alloca ptr, align 8
  store ptr %v.0, ptr %v.2, align 8
  %v.3 = call i64 @pg_in_len()
  %v.4 = sdiv i64 %v.3, 2
  %v.5 = call i64 @pg_in_len()
  call void @look(ptr noundef @high, i64 noundef %v.4, i64 noundef %v.5)
  %v.6 = load ptr, ptr %v.2, align 8
  ret ptr %v.6
}

define internal void @look(ptr noundef %v.0, i64 noundef %v.1, i64 noundef %v.2) #0 {
v.3:
  %v.4 = alloca ptr, align 8
  %v.5 = alloca i64, align 8
  %v.6 = alloca i64, align 8
  %v.7 = alloca i64, align 8
  %v.8 = alloca i64, align 8
  %v.9 = alloca i64, align 8
  %v.10 = alloca i64, align 8
  store ptr %v.0, ptr %v.4, align 8
  store i64 %v.1, ptr %v.5, align 8
  store i64 %v.2, ptr %v.6, align 8
  store i64 9223372036854775807, ptr %v.7, align 8
  store i64 -9223372036854775808, ptr %v.8, align 8
  store i64 0, ptr %v.9, align 8
  %v.11 = load i64, ptr %v.5, align 8
  store i64 %v.11, ptr %v.10, align 8
  br label %v.12
v.12:
  %v.13 = load i64, ptr %v.10, align 8
  %v.14 = load i64, ptr %v.6, align 8
  %v.15 = icmp slt i64 %v.13, %v.14
  br i1 %v.15, label %v.16, label %v.46
v.16:
  %v.17 = load i64, ptr %v.10, align 8
  %v.18 = getelementptr inbounds [512 x i64], ptr @numbers, i64 0, i64 %v.17
  %v.19 = load i64, ptr %v.18, align 8
  %v.20 = load i64, ptr %v.7, align 8
  %v.21 = icmp slt i64 %v.19, %v.20
  br i1 %v.21, label %v.22, label %v.26
v.22:
  %v.23 = load i64, ptr %v.10, align 8
  %v.24 = getelementptr inbounds [512 x i64], ptr @numbers, i64 0, i64 %v.23
  %v.25 = load i64, ptr %v.24, align 8
  store i64 %v.25, ptr %v.7, align 8
  br label %v.26
v.26:
  %v.27 = load i64, ptr %v.10, align 8
  %v.28 = getelementptr inbounds [512 x i64], ptr @numbers, i64 0, i64 %v.27
  %v.29 = load i64, ptr %v.28, align 8
  %v.30 = load i64, ptr %v.8, align 8
  %v.31 = icmp sgt i64 %v.29, %v.30
  br i1 %v.31, label %v.32, label %v.36
v.32:
  %v.33 = load i64, ptr %v.10, align 8
  %v.34 = getelementptr inbounds [512 x i64], ptr @numbers, i64 0, i64 %v.33
  %v.35 = load i64, ptr %v.34, align 8
  store i64 %v.35, ptr %v.8, align 8
  br label %v.36
v.36:
  %v.37 = load i64, ptr %v.10, align 8
  %v.38 = getelementptr inbounds [512 x i64], ptr @numbers, i64 0, i64 %v.37
  %v.39 = load i64, ptr %v.38, align 8
  %v.40 = icmp eq i64 %v.39, 7
  br i1 %v.40, label %v.41, label %v.42
v.41:
  store i64 1, ptr %v.9, align 8
  br label %v.42
v.42:
  br label %v.43
v.43:
  %v.44 = load i64, ptr %v.10, align 8
  %v.45 = add nsw i64 %v.44, 1
  store i64 %v.45, ptr %v.10, align 8
  br label %v.12, !llvm.loop !8
v.46:
  %v.47 = load i64, ptr %v.7, align 8
  %v.48 = load ptr, ptr %v.4, align 8
  %v.49 = getelementptr inbounds %struct.result, ptr %v.48, i32 0, i32 0
  store i64 %v.47, ptr %v.49, align 8
  %v.50 = load i64, ptr %v.8, align 8
  %v.51 = load ptr, ptr %v.4, align 8
  %v.52 = getelementptr inbounds %struct.result, ptr %v.51, i32 0, i32 1
  store i64 %v.50, ptr %v.52, align 8
  %v.53 = load i64, ptr %v.9, align 8
  %v.54 = load ptr, ptr %v.4, align 8
  %v.55 = getelementptr inbounds %struct.result, ptr %v.54, i32 0, i32 2
  store i64 %v.53, ptr %v.55, align 8
  ret void
}

declare i64 @pg_in_len() #1
declare i64 @pg_in(i64 noundef) #1
declare i32 @pthread_create(ptr noundef, ptr noundef, ptr noundef, ptr noundef) #2
declare i32 @pthread_join(i64 noundef, ptr noundef) #1
declare void @pg_out(i64 noundef) #1

attributes #0 = { noinline nounwind optnone uwtable "frame-pointer"="all" "min-legal-vector-width"="0" "no-trapping-math"="true" "stack-protector-buffer-size"="8" "target-cpu"="x86-64" "target-features"="+cx8,+fxsr,+mmx,+sse,+sse2,+x87" "tune-cpu"="generic" }
attributes #1 = { "frame-pointer"="all" "no-trapping-math"="true" "stack-protector-buffer-size"="8" "target-cpu"="x86-64" "target-features"="+cx8,+fxsr,+mmx,+sse,+sse2,+x87" "tune-cpu"="generic" }
attributes #2 = { nounwind "frame-pointer"="all" "no-trapping-math"="true" "stack-protector-buffer-size"="8" "target-cpu"="x86-64" "target-features"="+cx8,+fxsr,+mmx,+sse,+sse2,+x87" "tune-cpu"="generic" }
attributes #3 = { nounwind }
!llvm.module.flags = !{!0, !1, !2, !3, !4}
!llvm.ident = !{!5}
!0 = !{i32 1, !"wchar_size", i32 4}
!1 = !{i32 8, !"PIC Level", i32 2}
!2 = !{i32 7, !"PIE Level", i32 2}
!3 = !{i32 7, !"uwtable", i32 2}
!4 = !{i32 7, !"frame-pointer", i32 2}
!5 = !{!"Debian clang version 16.0.6 (15~deb12u1)"}
!6 = distinct !{!6, !7}
!7 = !{!"llvm.loop.mustprogress"}
!8 = distinct !{!8, !7}
