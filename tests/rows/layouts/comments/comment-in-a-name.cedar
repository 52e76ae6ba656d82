permit(principal is A // x
::B,action,resource);