// a// b
permit(principal,action,resource);