permit(principal,action,resource, // r
);