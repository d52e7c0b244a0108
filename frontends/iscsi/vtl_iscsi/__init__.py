"""An iSCSI front end of `vtl serve`: a medium changer and tape drives for hosts on a network."""
