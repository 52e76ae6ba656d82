permit(principal,action,resource)when{"a"
// c
== "b"};