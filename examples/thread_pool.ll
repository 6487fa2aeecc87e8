source_filename = "thread_pool.c"
target datalayout = "e-m:e-p270:32:32-p271:32:32-p272:64:64-i64:64-f80:128-n8:16:32:64-S128"
target triple = "x86_64-pc-linux-gnu"

%struct.anon = type { [4 x %struct.work], i32, i32, i8, %union.pthread_mutex_t, %union.pthread_cond_t, %union.pthread_cond_t }
%struct.work = type { i64, ptr }
%union.pthread_mutex_t = type { %struct.__pthread_mutex_s }
%struct.__pthread_mutex_s = type { i32, i32, i32, i32, i32, i16, i16, %struct.__pthread_internal_list }
%struct.__pthread_internal_list = type { ptr, ptr }
%union.pthread_cond_t = type { %struct.__pthread_cond_s }
%struct.__pthread_cond_s = type { %union.__atomic_wide_counter, %union.__atomic_wide_counter, [2 x i32], [2 x i32], i32, i32, [2 x i32] }
%union.__atomic_wide_counter = type { i64 }

@main.answers = internal global [512 x i64] zeroinitializer, align 16
@queue = internal global %struct.anon zeroinitializer, align 8

define dso_local i32 @main() #0 {
v.0:
  %v.1 = alloca i32, align 4
  %v.2 = alloca [3 x i64], align 16
  %v.3 = alloca i32, align 4
  %v.4 = alloca i64, align 8
  %v.5 = alloca %struct.work, align 8
  %v.6 = alloca i32, align 4
  %v.7 = alloca i64, align 8
  store i32 0, ptr %v.1, align 4
  store i32 0, ptr %v.3, align 4
  br label %v.8
v.8:
  %v.9 = load i32, ptr %v.3, align 4
  %v.10 = icmp slt i32 %v.9, 3
  br i1 %v.10, label %v.11, label %v.19
v.11:
  %v.12 = load i32, ptr %v.3, align 4
  %v.13 = sext i32 %v.12 to i64
  %v.14 = getelementptr inbounds [3 x i64], ptr %v.2, i64 0, i64 %v.13
  %v.15 = call i32 @pthread_create(ptr noundef %v.14, ptr noundef null, ptr noundef @worker, ptr noundef null) #4
  br label %v.16
v.16:
  %v.17 = load i32, ptr %v.3, align 4
  %v.18 = add nsw i32 %v.17, 1
  store i32 %v.18, ptr %v.3, align 4
  br label %v.8, !llvm.loop !6
v.19:
  store i64 0, ptr %v.4, align 8
  br label %v.20
v.20:
  %v.21 = load i64, ptr %v.4, align 8
  %v.22 = call i64 @pg_in_len()
  %v.23 = icmp slt i64 %v.21, %v.22
  br i1 %v.23, label %v.24, label %v.38
v.24:
  %v.25 = getelementptr inbounds %struct.work, ptr %v.5, i32 0, i32 0
  %v.26 = load i64, ptr %v.4, align 8
  %v.27 = call i64 @pg_in(i64 noundef %v.26)
  store i64 %v.27, ptr %v.25, align 8
  %v.28 = getelementptr inbounds %struct.work, ptr %v.5, i32 0, i32 1
  %v.29 = load i64, ptr %v.4, align 8
  %v.30 = getelementptr inbounds [512 x i64], ptr @main.answers, i64 0, i64 %v.29
  store ptr %v.30, ptr %v.28, align 8
  %v.31 = getelementptr inbounds { i64, ptr }, ptr %v.5, i32 0, i32 0
  %v.32 = load i64, ptr %v.31, align 8
  %v.33 = getelementptr inbounds { i64, ptr }, ptr %v.5, i32 0, i32 1
  %v.34 = load ptr, ptr %v.33, align 8
  call void @put(i64 %v.32, ptr %v.34)
  br label %v.35
v.35:
  %v.36 = load i64, ptr %v.4, align 8
  %v.37 = add nsw i64 %v.36, 1
  store i64 %v.37, ptr %v.4, align 8
  br label %v.20, !llvm.loop !8
v.38:
  call void @close_queue()
  store i32 0, ptr %v.6, align 4
  br label %v.39
v.39:
  %v.40 = load i32, ptr %v.6, align 4
  %v.41 = icmp slt i32 %v.40, 3
  br i1 %v.41, label %v.42, label %v.51
v.42:
  %v.43 = load i32, ptr %v.6, align 4
  %v.44 = sext i32 %v.43 to i64
  %v.45 = getelementptr inbounds [3 x i64], ptr %v.2, i64 0, i64 %v.44
  %v.46 = load i64, ptr %v.45, align 8
  %v.47 = call i32 @pthread_join(i64 noundef %v.46, ptr noundef null)
  br label %v.48
v.48:
  %v.49 = load i32, ptr %v.6, align 4
  %v.50 = add nsw i32 %v.49, 1
  store i32 %v.50, ptr %v.6, align 4
  br label %v.39, !llvm.loop !9
v.51:
  store i64 0, ptr %v.7, align 8
  br label %v.52
v.52:
  %v.53 = load i64, ptr %v.7, align 8
  %v.54 = call i64 @pg_in_len()
  %v.55 = icmp slt i64 %v.53, %v.54
  br i1 %v.55, label %v.56, label %v.63
v.56:
  %v.57 = load i64, ptr %v.7, align 8
  %v.58 = getelementptr inbounds [512 x i64], ptr @main.answers, i64 0, i64 %v.57
  %v.59 = load i64, ptr %v.58, align 8
  call void @pg_out(i64 noundef %v.59)
  br label %v.60
v.60:
  %v.61 = load i64, ptr %v.7, align 8
  %v.62 = add nsw i64 %v.61, 1
  store i64 %v.62, ptr %v.7, align 8
  br label %v.52, !llvm.loop !10
v.63:
  ret i32 0
}

define internal ptr @worker(ptr noundef %v.0) #0 {
v.1:
  %v.2 = alloca ptr, align 8
  %v.3 = alloca %struct.work, align 8
  store ptr %v.0, ptr %v.2, align 8
  br label %v.4
v.4:
  %v.5 = call zeroext i1 @take(ptr noundef %v.3)
  br i1 %v.5, label %v.6, label %v.12
v.6:
  %v.7 = getelementptr inbounds %struct.work, ptr %v.3, i32 0, i32 0
  %v.8 = load i64, ptr %v.7, align 8
  %v.9 = call i64 @steps(i64 noundef %v.8)
  %v.10 = getelementptr inbounds %struct.work, ptr %v.3, i32 0, i32 1
  %v.11 = load ptr, ptr %v.10, align 8
  store i64 %v.9, ptr %v.11, align 8
  br label %v.4, !llvm.loop !11
v.12:
  ret ptr null
}

define internal void @put(i64 %v.0, ptr %v.1) #0 {
v.2:
  %v.3 = alloca %struct.work, align 8
  %v.4 = getelementptr inbounds { i64, ptr }, ptr %v.3, i32 0, i32 0
  store i64 %v.0, ptr %v.4, align 8
  %v.5 = getelementptr inbounds { i64, ptr }, ptr %v.3, i32 0, i32 1
  store ptr %v.1, ptr %v.5, align 8
  %v.6 = call i32 @pthread_mutex_lock(ptr noundef getelementptr inbounds (%struct.anon, ptr @queue, i32 0, i32 4)) #4
  br label %v.7
v.7:
  %v.8 = load i32, ptr getelementptr inbounds (%struct.anon, ptr @queue, i32 0, i32 2), align 4
  %v.9 = icmp eq i32 %v.8, 4
  br i1 %v.9, label %v.10, label %v.12
v.10:
  %v.11 = call i32 @pthread_cond_wait(ptr noundef getelementptr inbounds (%struct.anon, ptr @queue, i32 0, i32 6), ptr noundef getelementptr inbounds (%struct.anon, ptr @queue, i32 0, i32 4))
  br label %v.7, !llvm.loop !12
v.12:
  %v.13 = load i32, ptr getelementptr inbounds (%struct.anon, ptr @queue, i32 0, i32 1), align 8
  %v.14 = load i32, ptr getelementptr inbounds (%struct.anon, ptr @queue, i32 0, i32 2), align 4
  %v.15 = add nsw i32 %v.14, 1
  store i32 %v.15, ptr getelementptr inbounds (%struct.anon, ptr @queue, i32 0, i32 2), align 4
  %v.16 = add nsw i32 %v.13, %v.14
  %v.17 = srem i32 %v.16, 4
  %v.18 = sext i32 %v.17 to i64
  %v.19 = getelementptr inbounds [4 x %struct.work], ptr @queue, i64 0, i64 %v.18
  call void @pg.copy.words(ptr %v.19, ptr %v.3, i64 16)
  %v.20 = call i32 @pthread_cond_signal(ptr noundef getelementptr inbounds (%struct.anon, ptr @queue, i32 0, i32 5)) #4
  %v.21 = call i32 @pthread_mutex_unlock(ptr noundef getelementptr inbounds (%struct.anon, ptr @queue, i32 0, i32 4)) #4
  ret void
}

define internal void @close_queue() #0 {
v.0:
  %v.1 = call i32 @pthread_mutex_lock(ptr noundef getelementptr inbounds (%struct.anon, ptr @queue, i32 0, i32 4)) #4
  store i8 1, ptr getelementptr inbounds (%struct.anon, ptr @queue, i32 0, i32 3), align 8
  %v.2 = call i32 @pthread_cond_broadcast(ptr noundef getelementptr inbounds (%struct.anon, ptr @queue, i32 0, i32 5)) #4
  %v.3 = call i32 @pthread_mutex_unlock(ptr noundef getelementptr inbounds (%struct.anon, ptr @queue, i32 0, i32 4)) #4
  ret void
}

define internal zeroext i1 @take(ptr noundef %v.0) #0 {
v.1:
  %v.2 = alloca ptr, align 8
  %v.3 = alloca i8, align 1
  store ptr %v.0, ptr %v.2, align 8
  %v.4 = call i32 @pthread_mutex_lock(ptr noundef getelementptr inbounds (%struct.anon, ptr @queue, i32 0, i32 4)) #4
  br label %v.5
v.5:
  %v.6 = load i32, ptr getelementptr inbounds (%struct.anon, ptr @queue, i32 0, i32 2), align 4
  %v.7 = icmp eq i32 %v.6, 0
  br i1 %v.7, label %v.8, label %v.12
v.8:
  %v.9 = load i8, ptr getelementptr inbounds (%struct.anon, ptr @queue, i32 0, i32 3), align 8
  %v.10 = trunc i8 %v.9 to i1
  %v.11 = xor i1 %v.10, true
  br label %v.12
v.12:
  %v.13 = phi i1 [ false, %v.5 ], [ %v.11, %v.8 ]
  br i1 %v.13, label %v.14, label %v.16
v.14:
  %v.15 = call i32 @pthread_cond_wait(ptr noundef getelementptr inbounds (%struct.anon, ptr @queue, i32 0, i32 5), ptr noundef getelementptr inbounds (%struct.anon, ptr @queue, i32 0, i32 4))
  br label %v.5, !llvm.loop !13
v.16:
  %v.17 = load i32, ptr getelementptr inbounds (%struct.anon, ptr @queue, i32 0, i32 2), align 4
  %v.18 = icmp sgt i32 %v.17, 0
  %v.19 = zext i1 %v.18 to i8
  store i8 %v.19, ptr %v.3, align 1
  %v.20 = load i8, ptr %v.3, align 1
  %v.21 = trunc i8 %v.20 to i1
  br i1 %v.21, label %v.22, label %v.33
v.22:
  %v.23 = load ptr, ptr %v.2, align 8
  %v.24 = load i32, ptr getelementptr inbounds (%struct.anon, ptr @queue, i32 0, i32 1), align 8
  %v.25 = sext i32 %v.24 to i64
  %v.26 = getelementptr inbounds [4 x %struct.work], ptr @queue, i64 0, i64 %v.25
  call void @pg.copy.words(ptr %v.23, ptr %v.26, i64 16)
  %v.27 = load i32, ptr getelementptr inbounds (%struct.anon, ptr @queue, i32 0, i32 1), align 8
  %v.28 = add nsw i32 %v.27, 1
  %v.29 = srem i32 %v.28, 4
  store i32 %v.29, ptr getelementptr inbounds (%struct.anon, ptr @queue, i32 0, i32 1), align 8
  %v.30 = load i32, ptr getelementptr inbounds (%struct.anon, ptr @queue, i32 0, i32 2), align 4
  %v.31 = add nsw i32 %v.30, -1
  store i32 %v.31, ptr getelementptr inbounds (%struct.anon, ptr @queue, i32 0, i32 2), align 4
  %v.32 = call i32 @pthread_cond_signal(ptr noundef getelementptr inbounds (%struct.anon, ptr @queue, i32 0, i32 6)) #4
  br label %v.33
v.33:
  %v.34 = call i32 @pthread_mutex_unlock(ptr noundef getelementptr inbounds (%struct.anon, ptr @queue, i32 0, i32 4)) #4
  %v.35 = load i8, ptr %v.3, align 1
  %v.36 = trunc i8 %v.35 to i1
  ret i1 %v.36
}

define internal i64 @steps(i64 noundef %v.0) #0 {
v.1:
  %v.2 = alloca i64, align 8
  %v.3 = alloca i64, align 8
  store i64 %v.0, ptr %v.2, align 8
  store i64 0, ptr %v.3, align 8
  br label %v.4
v.4:
  %v.5 = load i64, ptr %v.2, align 8
  %v.6 = icmp sgt i64 %v.5, 1
  br i1 %v.6, label %v.7, label %v.10
v.7:
  %v.8 = load i64, ptr %v.3, align 8
  %v.9 = icmp slt i64 %v.8, 200
  br label %v.10
v.10:
  %v.11 = phi i1 [ false, %v.4 ], [ %v.9, %v.7 ]
  br i1 %v.11, label %v.12, label %v.28
v.12:
  %v.13 = load i64, ptr %v.2, align 8
  %v.14 = srem i64 %v.13, 2
  %v.15 = icmp eq i64 %v.14, 0
  br i1 %v.15, label %v.16, label %v.19
v.16:
  %v.17 = load i64, ptr %v.2, align 8
  %v.18 = sdiv i64 %v.17, 2
  br label %v.23
v.19:
  %v.20 = load i64, ptr %v.2, align 8
  %v.21 = mul nsw i64 3, %v.20
  %v.22 = add nsw i64 %v.21, 1
  br label %v.23
v.23:
  %v.24 = phi i64 [ %v.18, %v.16 ], [ %v.22, %v.19 ]
  store i64 %v.24, ptr %v.2, align 8
  br label %v.25
v.25:
  %v.26 = load i64, ptr %v.3, align 8
  %v.27 = add nsw i64 %v.26, 1
  store i64 %v.27, ptr %v.3, align 8
  br label %v.4, !llvm.loop !14
v.28:
  %v.29 = load i64, ptr %v.3, align 8
  ret i64 %v.29
}

define void @pg.copy.words(ptr %to, ptr %from, i64 %count) {
start:
  br label %test
test:
  %i = phi i64 [ 0, %start ], [ %next, %body ]
  %more = icmp ult i64 %i, %count
  br i1 %more, label %body, label %end
body:
  %source = getelementptr i8, ptr %from, i64 %i
  %part = load i64, ptr %source
  %place = getelementptr i8, ptr %to, i64 %i
  store i64 %part, ptr %place
  %next = add i64 %i, 8
  br label %test
end:
  ret void
}

declare i32 @pthread_create(ptr noundef, ptr noundef, ptr noundef, ptr noundef) #1
declare i64 @pg_in_len() #2
declare i64 @pg_in(i64 noundef) #2
declare i32 @pthread_join(i64 noundef, ptr noundef) #2
declare void @pg_out(i64 noundef) #2
declare i32 @pthread_mutex_lock(ptr noundef) #1
declare i32 @pthread_cond_wait(ptr noundef, ptr noundef) #2
declare i32 @pthread_cond_signal(ptr noundef) #1
declare i32 @pthread_mutex_unlock(ptr noundef) #1
declare i32 @pthread_cond_broadcast(ptr noundef) #1

attributes #0 = { noinline nounwind optnone uwtable "frame-pointer"="all" "min-legal-vector-width"="0" "no-trapping-math"="true" "stack-protector-buffer-size"="8" "target-cpu"="x86-64" "target-features"="+cx8,+fxsr,+mmx,+sse,+sse2,+x87" "tune-cpu"="generic" }
attributes #1 = { nounwind "frame-pointer"="all" "no-trapping-math"="true" "stack-protector-buffer-size"="8" "target-cpu"="x86-64" "target-features"="+cx8,+fxsr,+mmx,+sse,+sse2,+x87" "tune-cpu"="generic" }
attributes #2 = { "frame-pointer"="all" "no-trapping-math"="true" "stack-protector-buffer-size"="8" "target-cpu"="x86-64" "target-features"="+cx8,+fxsr,+mmx,+sse,+sse2,+x87" "tune-cpu"="generic" }
attributes #3 = { nocallback nofree nounwind willreturn memory(argmem: readwrite) }
attributes #4 = { nounwind }
!llvm.module.flags = !{!0, !1, !2, !3, !4}
!llvm.ident = !{!5}
!0 = !{i32 1, !"wchar_size", i32 4}
!1 = !{i32 8, !"PIC Level", i32 2}
!2 = !{i32 7, !"PIE Level", i32 2}
!3 = !{i32 7, !"uwtable", i32 2}
!4 = !{i32 7, !"frame-pointer", i32 2}
!5 = !{!"Debian clang version 16.0.6 (15~deb12u1)"}
!6 = distinct !{!6, !7}
!7 = !{!"llvm.loop.mustprogress"}
!8 = distinct !{!8, !7}
!9 = distinct !{!9, !7}
!10 = distinct !{!10, !7}
!11 = distinct !{!11, !7}
!12 = distinct !{!12, !7}
!13 = distinct !{!13, !7}
!14 = distinct !{!14, !7}
