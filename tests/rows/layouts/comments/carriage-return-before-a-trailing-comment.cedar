permit(principal,action,resource);// a// b
// c