--  The host that the tasks of this program share.

pragma Profile (Ravenscar);

with Ravenhost.Gates;

package Texts_Gate is new Ravenhost.Gates (Last_Actor => 15);
