eret
# été
