%a = type { %a }
