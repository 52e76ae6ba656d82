permit(principal, // p
action,resource);