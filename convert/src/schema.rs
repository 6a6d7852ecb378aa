//! Entities of IFC2X3, IFC4 and IFC4X3 that are elements, and the keyword of the server's profile for each.

use std::collections::HashMap;

/// The keywords that the server takes for elements, without `IFC`.
const TAKEN: &str = "BEAM BEAMSTANDARDCASE BUILDINGELEMENTPROXY CHIMNEY COLUMN COLUMNSTANDARDCASE COVERING \
CURTAINWALL DOOR DOORSTANDARDCASE ELEMENTASSEMBLY FOOTING FURNISHINGELEMENT FURNITURE MEMBER MEMBERSTANDARDCASE \
PILE PLATE PLATESTANDARDCASE RAILING RAMP RAMPFLIGHT ROOF SHADINGDEVICE SLAB SLABSTANDARDCASE STAIR STAIRFLIGHT \
TRANSPORTELEMENT WALL WALLSTANDARDCASE WINDOW WINDOWSTANDARDCASE DISTRIBUTIONELEMENT DISTRIBUTIONFLOWELEMENT \
FLOWSEGMENT FLOWFITTING FLOWTERMINAL FLOWCONTROLLER PIPESEGMENT PIPEFITTING DUCTSEGMENT DUCTFITTING CABLESEGMENT \
CABLECARRIERSEGMENT VALVE PUMP FAN BOILER TANK AIRTERMINAL DAMPER LIGHTFIXTURE OUTLET SANITARYTERMINAL";

/// A keyword that the server takes, and the entities beside it that are written as it.
const NEAREST: &[(&str, &str)] = &[
    ("FLOWFITTING", "CABLECARRIERFITTING CABLEFITTING JUNCTIONBOX"),
    (
        "FLOWCONTROLLER",
        "AIRTERMINALBOX ELECTRICDISTRIBUTIONBOARD ELECTRICDISTRIBUTIONPOINT ELECTRICTIMECONTROL FLOWMETER \
PROTECTIVEDEVICE SWITCHINGDEVICE DISTRIBUTIONBOARD",
    ),
    (
        "FLOWTERMINAL",
        "AUDIOVISUALAPPLIANCE COMMUNICATIONSAPPLIANCE ELECTRICAPPLIANCE FIRESUPPRESSIONTERMINAL LAMP MEDICALDEVICE \
SPACEHEATER STACKTERMINAL WASTETERMINAL MOBILETELECOMMUNICATIONSAPPLIANCE LIQUIDTERMINAL SIGNAL",
    ),
    (
        "DISTRIBUTIONFLOWELEMENT",
        "FLOWMOVINGDEVICE COMPRESSOR FLOWSTORAGEDEVICE ELECTRICFLOWSTORAGEDEVICE FLOWTREATMENTDEVICE DUCTSILENCER \
FILTER INTERCEPTOR ENERGYCONVERSIONDEVICE AIRTOAIRHEATRECOVERY BURNER CHILLER COIL CONDENSER COOLEDBEAM \
COOLINGTOWER ELECTRICGENERATOR ELECTRICMOTOR ENGINE EVAPORATIVECOOLER EVAPORATOR HEATEXCHANGER HUMIDIFIER \
MOTORCONNECTION SOLARDEVICE TRANSFORMER TUBEBUNDLE UNITARYEQUIPMENT DISTRIBUTIONCHAMBERELEMENT \
ELECTRICFLOWTREATMENTDEVICE",
    ),
    (
        "DISTRIBUTIONELEMENT",
        "DISTRIBUTIONCONTROLELEMENT ACTUATOR ALARM CONTROLLER FLOWINSTRUMENT PROTECTIVEDEVICETRIPPINGUNIT SENSOR \
UNITARYCONTROLELEMENT",
    ),
    ("FLOWSEGMENT", "CONVEYORSEGMENT"),
    ("FURNITURE", "SYSTEMFURNITUREELEMENT"),
    ("WALL", "WALLELEMENTEDCASE"),
    ("SLAB", "SLABELEMENTEDCASE"),
    ("PILE", "DEEPFOUNDATION CAISSONFOUNDATION"),
    (
        "BUILDINGELEMENTPROXY",
        "BUILDINGELEMENTPART DISCRETEACCESSORY FASTENER MECHANICALFASTENER REINFORCINGBAR REINFORCINGMESH \
REINFORCINGELEMENT TENDON TENDONANCHOR TENDONCONDUIT VIBRATIONISOLATOR VIBRATIONDAMPER IMPACTPROTECTIONDEVICE \
ELECTRICALELEMENT EQUIPMENTELEMENT GEOGRAPHICELEMENT CIVILELEMENT BUILTELEMENT BUILDINGELEMENT \
BUILDINGELEMENTCOMPONENT BEARING COURSE KERB PAVEMENT RAIL TRACKELEMENT SIGN MOORINGDEVICE NAVIGATIONELEMENT \
EARTHWORKSELEMENT EARTHWORKSFILL GEOTECHNICALELEMENT",
    ),
];

/// What the report names where it has a shape but is no element.
const NOT_ELEMENTS: &[&str] = &[
    "IFCVIRTUALELEMENT",
    "IFCSPACE",
    "IFCSITE",
    "IFCBUILDING",
    "IFCANNOTATION",
    "IFCGRID",
    "IFCPROXY",
    "IFCALIGNMENT",
    "IFCREFERENT",
    "IFCEARTHWORKSCUT",
    "IFCSPATIALZONE",
];

/// Which entities are elements.
pub struct Classes {
    written: HashMap<&'static str, &'static str>,
}

impl Default for Classes {
    fn default() -> Self {
        let mut written = HashMap::new();
        for word in TAKEN.split_whitespace() {
            written.insert(word, word);
        }
        for (taken, others) in NEAREST {
            for word in others.split_whitespace() {
                written.insert(word, *taken);
            }
        }
        Classes { written }
    }
}

impl Classes {
    /// The profile's class for a keyword in upper case, without `IFC`; none for what is no element.
    pub fn of(&self, keyword: &str) -> Option<&'static str> {
        self.written.get(keyword.strip_prefix("IFC")?).copied()
    }

    /// The class of an element by the keyword of its type: in IFC2X3 a pipe is a flow segment whose type says pipe.
    pub fn of_type(&self, class: &str, type_keyword: &str) -> Option<&'static str> {
        if !class.starts_with("FLOW") && !class.starts_with("DISTRIBUTION") {
            return None;
        }
        let own = self.of(type_keyword.strip_suffix("TYPE")?)?;
        if own == class {
            None
        } else {
            Some(own)
        }
    }
}

/// Whether a keyword is of something with a shape that is no element, such as a space.
pub fn is_no_element(keyword: &str) -> bool {
    NOT_ELEMENTS.contains(&keyword) || keyword.starts_with("IFCSTRUCTURAL")
}

/// Whether the converter reads files of this schema.
pub fn is_read(schema: &str) -> bool {
    schema.starts_with("IFC2X3") || schema.starts_with("IFC4")
}

#[cfg(test)]
mod tests {
    use super::*;

    #[test]
    fn the_server_takes_55_classes() {
        assert_eq!(TAKEN.split_whitespace().count(), 55);
        let classes = Classes::default();
        for (taken, _) in NEAREST {
            assert_eq!(classes.of(&format!("IFC{taken}")), Some(*taken));
        }
    }

    #[test]
    fn classes_by_keyword_and_type() {
        let classes = Classes::default();
        assert_eq!(classes.of("IFCWALL"), Some("WALL"));
        assert_eq!(
            classes.of("IFCREINFORCINGBAR"),
            Some("BUILDINGELEMENTPROXY")
        );
        assert_eq!(classes.of("IFCSPACE"), None);
        assert_eq!(
            classes.of_type("FLOWSEGMENT", "IFCPIPESEGMENTTYPE"),
            Some("PIPESEGMENT")
        );
        assert_eq!(classes.of_type("WALL", "IFCPIPESEGMENTTYPE"), None);
    }
}
