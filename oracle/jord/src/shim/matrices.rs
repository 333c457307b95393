// Shim for matrices: enough for the carried files to compile; no answer of the loop part uses them.
use crate::Vec3;

#[derive(PartialEq, Clone, Copy, Debug)]
pub struct Mat33 {
    r0: Vec3,
    r1: Vec3,
    r2: Vec3,
}

impl Mat33 {
    pub fn new(r0: Vec3, r1: Vec3, r2: Vec3) -> Self {
        Mat33 { r0, r1, r2 }
    }

    fn columns(self) -> (Vec3, Vec3, Vec3) {
        (
            Vec3::new(self.r0.x(), self.r1.x(), self.r2.x()),
            Vec3::new(self.r0.y(), self.r1.y(), self.r2.y()),
            Vec3::new(self.r0.z(), self.r1.z(), self.r2.z()),
        )
    }
}

impl ::std::ops::Mul<Vec3> for Mat33 {
    type Output = Vec3;
    fn mul(self, v: Vec3) -> Vec3 {
        Vec3::new(self.r0.dot_prod(v), self.r1.dot_prod(v), self.r2.dot_prod(v))
    }
}

impl ::std::ops::Mul<Mat33> for Vec3 {
    type Output = Vec3;
    fn mul(self, m: Mat33) -> Vec3 {
        m * self
    }
}

impl ::std::ops::Mul for Mat33 {
    type Output = Mat33;
    fn mul(self, o: Mat33) -> Mat33 {
        let (a, b, c) = o.columns();
        let row = |r: Vec3| Vec3::new(r.dot_prod(a), r.dot_prod(b), r.dot_prod(c));
        Mat33::new(row(self.r0), row(self.r1), row(self.r2))
    }
}
