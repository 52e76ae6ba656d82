permit(principal,action,resource);
;=