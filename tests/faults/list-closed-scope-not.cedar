permit (principal, action in [Action::"a"], resource;
