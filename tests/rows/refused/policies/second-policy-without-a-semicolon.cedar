permit(principal,action,resource);// c
permit(principal,action,resource)