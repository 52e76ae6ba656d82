permit(principal,action,resource);
;"x