permit(principal,action,resource)when{f(1 // x
// y
)};