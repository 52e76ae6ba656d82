// An album says who sees it: its owner, friends, or the world.
permit(principal,action in[Photos::Action::"view",Photos::Action::"listAlbum"],resource)
when{if resource.audience=="world" then true else if resource.audience=="friends" then principal in resource.owner.friends else principal==resource.owner};
