permit(principal,action,resource); // t
// l
permit(principal,action,resource);
// e