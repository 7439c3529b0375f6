eret
end: .entry end
