permit(principal,action,resource);
;18446744073709551616